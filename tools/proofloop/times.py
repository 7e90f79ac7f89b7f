"""How long each module of a check took. antt writes a module's file as soon as it has checked it, with one job one after another, so
that the time between two files is the later one's. (Of a crate with much to check, copies of antt check a part each, and their files
come between: run it again where a time cannot be.)
"""


def modules(folder):
    """The modules that a check left in an empty incremental folder, the longest first: seconds and name."""
    files = [path for path in folder.rglob("*.oantt") if "records" not in path.parts]
    files.sort(key=lambda path: path.stat().st_mtime_ns)
    times = [path.stat().st_mtime_ns for path in files]
    spans = [(later - earlier) / 1e9 for earlier, later in zip(times, times[1:])]
    return sorted(((span, path.stem) for span, path in zip(spans, files[1:])), reverse=True)
