/*
 * fsk.h - finger skeletal records (ISO/IEC 19794-8:2006) for a host written in C or C++.
 *
 * A RECORD is a run of 24 to 32,768 bytes: a header, then one or more VIEWS of a finger. A view has a header, a block of
 * LINES (a ridge each: where it starts, how it runs, where it ends), an INDEX that says which lines are neighbours (or none),
 * and SEGMENTS of extended data, which the library carries as they are; those of local quality and of pores it also reads and
 * rewrites, and the pores of a removed line go with it. Lines and segments are counted from 0.
 *
 * A view is named by two numbers: finger, its finger position (0 unknown, 1 to 5 right thumb to right little finger, 6 to 10 left
 * thumb to left little finger), and number, its view number (0 for the first view of that finger, 1 for the second and so on). So
 * the second scan of the right index finger is finger 2, number 1. No two views of a record have both in common, and no order
 * changes them; two numbers that no view has, however large, are refused with 13. The sheet's field 02 has both, the number first,
 * and the library's listing prints both, as in "right index 1".
 *
 * A card takes an OBJECT instead of a record: one view without its name and its segments, at one of two sizes, each of which fixes
 * what a record's header says. fsk_card_read and fsk_card_write make one from the other.
 *
 * Every call takes numbers and byte slices (a pointer and a length; an empty slice may have a null pointer) and gives an
 * fsk_answer back, fsk_holds an fsk_held. Whatever the bytes and the numbers are, the call answers: all that is asked of
 * the caller is what a call cannot see, that each pointer is valid for its length and that the output overlaps no input. A call keeps
 * no pointer, allocates nothing, and never reads or writes outside the slices it is lent.
 *
 * Measured on the records of the library's benchmark, no call takes more than 1,560 bytes of stack (fsk_pairs), reading 856, writing
 * 352. The return address is counted, and so is what a function keeps in the 128 bytes below its stack pointer, which x86-64 leaves to
 * it: whatever else runs on the same stack has to leave them alone too.
 *
 * Link with the archive libfsk.a (-lfsk). It holds code for x86-64.
 */
#ifndef FSK_H
#define FSK_H

#include <stddef.h>
#include <stdint.h>

#ifdef __cplusplus
extern "C" {
#endif

/*
 * What a call answers.
 *   number  0: accepted. Anything else: refused, for the reason that the number names (below).
 *   place   number 2 to 12: the first bit of what is at fault, counted from the record's first bit. It is in byte place / 8, and
 *           there it is bit place % 8, counted from the high end. It lies in the record or, at most, right behind its last bit.
 *           fsk_card_read, number 8 to 10: likewise, but counted from the object's first bit.
 *           An accepted fsk_segment: the payload's first bit, counted from the record's first.
 *           fsk_pairs, number 15, 18, 19 or 20: the order that is refused, counted from 0 as the list has them. Else 0.
 *   length  accepted: how many elements were written to the output (what an element is, each call says). Refused: 0.
 * A refused call leaves the output as it was, to the byte. An accepted one leaves what lies beyond the written elements.
 */
typedef struct {
    uint32_t number;
    uint32_t place;
    size_t length;
} fsk_answer;

/*
 * Why a call refuses, and, for 2 to 12, what the answer's place is. The numbers are fixed. fsk_text gives the sentence that says why,
 * fsk_where the one about the place.
 *
 * A record is judged by 1 to 5, then view by view in the order of its bytes; the first fault found is the answer. A call that asks
 * for something, or orders something, judges the record first, then what is asked for or ordered, then the output; but the number of
 * a card's size or of a rule is judged before all else. Of a sheet 21 is judged over the whole of it, then 22 over the whole of it.
 * Each call lists what it refuses in the order in which it judges.
 */
enum {
    FSK_ACCEPTED = 0,       /* The call is accepted. */
    FSK_BAD_SIZE = 1,       /* The record has under 24 or over 32,768 bytes. */
    FSK_BAD_IDENTIFIER = 2, /* The record does not start with the identifier 46 53 4B 00 (FSK).
                               The place is the identifier's, bytes 0 to 3. */
    FSK_BAD_VERSION = 3,    /* The record's version is not 30 31 30 00 (010).
                               The place is the version's, bytes 4 to 7. */
    FSK_BAD_LENGTH = 4,     /* The length that the record states is not the length lent.
                               The place is the stated length's, bytes 8 to 11. */
    FSK_BAD_HEADER = 5,     /* Another field of the record's header is outside its range.
                               The place is the first such field's: byte 14 views, 15 points per cm, 16 bits of a coordinate (1-16),
                               17 of a direction (4-8), 18 of a code (2-8), 19 straight step, 21 directions in a half turn, 22
                               reserved. */
    FSK_PAST_END = 6,       /* A view header, a length field or a block passes the end of the record.
                               The place is the first bit of that header, length field or block, or the record's end where nothing is
                               left. */
    FSK_BAD_VIEW = 7,       /* A value in a view header is not allowed: view number, finger position (0-10), impression (0-3, 8, 9)
                               or quality (0-100).
                               The place is the first such value's; a view header starts with the four in this order, a byte each. */
    FSK_BAD_LINE = 8,       /* A line does not fit its block, or the bits that fill the block up are not zero.
                               The place is the first bit of the line that does not fit, or the first filling bit that is 1. */
    FSK_TOO_MANY_LINES = 9, /* A view has more than 1,024 lines.
                               The place is the first bit behind the 1,024th line. */
    FSK_BAD_INDEX = 10,     /* A neighbour index breaks a rule.
                               The place is that of the width where it is not 1 to 16; else of the first count or difference that
                               breaks a rule or passes the block's end; else it is the first bit left over that is 1, or else the
                               eighth bit left over. */
    FSK_BAD_SEGMENT = 11,   /* A segment's length is under 4 or passes its block, or 1 to 3 bytes are left over.
                               The place is the first bit of the segment's length, or the first byte left over. */
    FSK_BYTES_OVER = 12,    /* There are bytes after the last view.
                               The place is the first byte after the last view. */
    FSK_NO_VIEW = 13,       /* The record has no view with that finger position and view number. */
    FSK_OTHER_COUNT = 14,   /* The view has another number of lines than the order was made for. */
    FSK_BAD_LINES = 15,     /* A line number is not below the view's number of lines, or a removal list is empty, not rising or of
                               odd length. */
    FSK_EXTENDED = 16,      /* No line can be removed from a view with a segment of another type than local quality (0x0003) or
                               pores (0x0004). */
    FSK_NO_INDEX = 17,      /* The view has no index, so that no lines can be joined or parted. */
    FSK_ALREADY_SO = 18,    /* The lines to join are neighbours already, or those to part are not. */
    FSK_TOO_LONG = 19,      /* The new record would have over 32,768 bytes. */
    FSK_NO_ROOM = 20,       /* The output is too short for what would be written. */
    FSK_BAD_SHEET = 21,     /* A field of the sheet is cut, or its tag, its place in the order or its length is wrong; or the sheet
                               has no views or over 255, over 1,024 lines in a view, or not one 05 for each line. */
    FSK_BAD_VALUE = 22,     /* A value in the sheet is not one that a record can hold at the widths given. */
    FSK_NO_SEGMENT = 23,    /* The view has no segment with that place. */
    FSK_BAD_QUALITY = 24,   /* The segment is not one of local quality (0x0003), or the payload to be read or the values to be written
                               break its rules. */
    FSK_BAD_PAIRS = 25,     /* The list of orders about pairs is empty, its length is no multiple of 6, or an order's first number is
                               neither 0 nor 1. */
    FSK_BAD_PORES = 26,     /* The segment asked for is not one of pores (0x0004), or the payload of one or the values to be
                               written break its rules. */
    FSK_BAD_OBJECT = 27,    /* The card's size is neither 0 (normal) nor 1 (compact), or the object's shape is wrong: its tags, its
                               lengths or bytes over. */
    FSK_OTHER_SCALE = 28,   /* The record's points per cm, widths, steps or directions in a half turn are not those of the card's
                               size. */
    FSK_BAD_RUN = 29,       /* The run falls, starts above 255, rises by over 255 in a step or has an odd number of bytes; or low
                               bytes make a coordinate above 65,535. */
    FSK_NO_RULE = 30,       /* No enrolment rule has that number: the rules are 1 and 2. */
    FSK_BELOW_RULE = 31,    /* The record has fewer bits of a direction (byte 17) than the enrolment rule wants: rule 2 wants 6. */
    FSK_NUMBERS             /* how many numbers there are: each is below it */
};

/*
 * What a number means, and what to do about it: a sentence that is always there and never null, also for a number that no call
 * answers. And what the place of an answer with this number is: empty, but never null, for a number that has no place in a record
 * or object.
 */
const char *fsk_text(uint32_t number);
const char *fsk_advice(uint32_t number);
const char *fsk_where(uint32_t number);

/*
 * The record as a SHEET: its fields one after another, each a tag (1 byte), a length (2 bytes) and a value. Numbers of more than
 * one byte are high byte first.
 *   01  certificates and device (2 bytes), points per cm, bits of a coordinate (c), of a direction (b), of a code (k), straight
 *       step, 256 times perpendicular over straight step, directions in a half turn (N): 9 bytes
 *   02  a view: number, finger position, impression, quality, width (2), height (2): 8 bytes
 *   03  a line: start type, direction, x (2), y (2), end type, direction, x (2), y (2), then a byte for each code, two's
 *       complement. Types: 0 imaginary end, 1 ridge end, 2 bifurcation, 3 imaginary continuation
 *   04  the index's width in bits, where the view has an index
 *   05  a line's neighbours by number, 2 bytes each, highest first; one such field for each line, behind 04
 *   06  a segment: type (2), payload
 * One 01; then for each view one 02, its 03s, nothing or 04 and its 05s, and its 06s. Seven times the record's length
 * always suffices.
 * Writes bytes. Refuses: 1 to 12, 20.
 */
fsk_answer fsk_read(const uint8_t *record, size_t record_length, uint8_t *sheet, size_t sheet_length);

/*
 * The record of a sheet, which fsk_read explains. Identifier, version, lengths, the number of views and what fills blocks up are not
 * in the sheet: they follow from it. Writing the sheet that reading gave gives the record's bytes back, and reading a written record
 * gives its sheet back. 32,768 bytes always suffice.
 * Writes bytes. Refuses: 21, 22, 19, 20.
 */
fsk_answer fsk_write(const uint8_t *sheet, size_t sheet_length, uint8_t *record, size_t record_length);

/*
 * Whether a record passes an ENROLMENT RULE, which wants so many bits of a direction (b) in the record's header:
 *   1  from 4 on, the least that any record has: what fsk_read accepts passes, and nothing else does
 *   2  from 6 on, which is 64 directions: for new enrolments
 * What passes rule 2 passes rule 1, and no order changes what a record passes. Nothing is written, and an accepted answer's length is 0.
 * rule: its number. Refuses: 30, 1 to 12, 31.
 */
fsk_answer fsk_check(uint32_t rule, const uint8_t *record, size_t record_length);

/*
 * The TRAIL of a line: how it runs, step by step. Headings are 0 to 2N - 1 in a full turn (N is the header's number of directions in a
 * half turn). A line starts at level 0, at the heading nearest to its start direction: that direction times 2N over 2 to the b (b is
 * the header's bits of a direction), rounded to a whole number, halves upwards, where 2N is heading 0. Each of its codes turns the
 * heading and draws an element there; but one code, that with only its top bit set, draws nothing and turns the level between 0 and 1.
 * The trail has one 16-bit number for each element drawn: twice its heading plus its level. A line has at most 255 codes, so 510 bytes
 * always suffice.
 * finger, number: the view. line: counted from 0. Writes 16-bit numbers as bytes, high byte first: two bytes each. The answer's
 * length counts these numbers, not the bytes. Where the output has an odd number of bytes, the last one stays as it was.
 * Refuses: 1 to 12, 13, 15, 20.
 */
fsk_answer fsk_trail(const uint8_t *record, size_t record_length, uint32_t finger, uint32_t number, uint32_t line, uint8_t *trail,
                     size_t trail_length);

/*
 * Where a SEGMENT of a view has its payload: the bytes behind its type and its length. Nothing is written or copied. Of an accepted
 * answer, place is the payload's first bit, counted from the record's first, and length its bytes: the payload is
 * record + place / 8, length bytes long.
 * finger, number: the view. segment: counted from 0. Refuses: 1 to 12, 13, 23.
 */
fsk_answer fsk_segment(const uint8_t *record, size_t record_length, uint32_t finger, uint32_t number, uint32_t segment);

/*
 * The LOCAL QUALITY of a view's image, which a segment of type 0x0003 has as its payload: the image is laid out in cells of one size,
 * and each has a value. The VALUES are bytes: a cell's width and height in points (1 to 255 each), the bits of a value in the payload
 * (1 to 8), and then a byte for each cell, left to right and top to bottom, which is below 2 to that number of bits. In a row there
 * are as many cells as the view's width over the cell's, rounded up, and as many rows as the view's height over the cell's, rounded
 * up; a view of width or height 0 has no cells. (The view's width and height are in the sheet's field 02.) A payload is right where
 * it is the first three of these bytes, the cells' values with so many bits each, and zero bits up to a whole byte, and nothing else.
 * Eight times the record's length always suffices.
 * finger, number: the view. segment: counted from 0. Writes bytes. Refuses: 1 to 12, 13, 23, 24, 20.
 */
fsk_answer fsk_quality(const uint8_t *record, size_t record_length, uint32_t finger, uint32_t number, uint32_t segment,
                       uint8_t *values, size_t values_length);

/*
 * The record with the payload of a segment of local quality made from such values. Only that payload, its segment's length, the
 * extended length and the record length are others. What the payload was is not judged, so that one that breaks the rules can be
 * mended; the values are. Rewriting with the values that fsk_quality gave gives the record back, and fsk_quality then gives what was
 * rewritten. 32,768 bytes always suffice for the new record.
 * finger, number: the view. segment: counted from 0. Writes bytes, to a second buffer. Refuses: 1 to 12, 13, 23, 24, 19, 20.
 */
fsk_answer fsk_set_quality(const uint8_t *record, size_t record_length, uint32_t finger, uint32_t number, uint32_t segment,
                           const uint8_t *values, size_t values_length, uint8_t *second, size_t second_length);

/*
 * The SWEAT PORES along a view's lines, which a segment of type 0x0004 has as its payload: for each line, how far it is from pore to
 * pore. The VALUES are 32-bit numbers: the resolution in points per cm (0 to 65,535), the bits of an element of the payload (e, 2 to
 * 8), and then, for each line of the view, a count and that many distances to the next pore, each at least 1. A payload is right where
 * it is the resolution (2 bytes), e (1 byte), the lines' elements with e bits each, and zero bits up to a whole byte, and nothing else.
 * A line has a zero element and then the elements of its distances: where m is 2 to the e less 2, one with all bits set for each m
 * that passes without a pore, and one with the rest, 1 to m. So no line ends with all bits set, and a view without lines has the first
 * three bytes alone. Sixteen times the record's length always suffices.
 * finger, number: the view. segment: counted from 0. Writes 32-bit numbers as bytes, high byte first: four bytes each. The answer's
 * length counts these numbers, not the bytes. Where the output's length is no multiple of four, the bytes over stay as they were.
 * Refuses: 1 to 12, 13, 23, 26, 20.
 */
fsk_answer fsk_pores(const uint8_t *record, size_t record_length, uint32_t finger, uint32_t number, uint32_t segment,
                     uint8_t *values, size_t values_length);

/*
 * The record with the payload of a segment of pores made from such values. Only that payload, its segment's length, the extended
 * length and the record length are others. What the payload was is not judged, so that one that breaks the rules can be mended; the
 * values are, also that there are as many counts as the view has lines, and nothing behind the last distance. Rewriting with the
 * values that fsk_pores gave gives the record back, and fsk_pores then gives what was rewritten. 32,768 bytes always suffice for the
 * new record.
 * finger, number: the view. segment: counted from 0. values: as fsk_pores writes them; their length is in bytes, so four times its
 * answer's. Writes bytes, to a second buffer. Refuses: 1 to 12, 13, 23, 26, 19, 20.
 */
fsk_answer fsk_set_pores(const uint8_t *record, size_t record_length, uint32_t finger, uint32_t number, uint32_t segment,
                         const uint8_t *values, size_t values_length, uint8_t *second, size_t second_length);

/*
 * The OBJECT that a card takes: a template with tag 7F2E. First in it stands an object with tag 90, whose value has one view, as it
 * stands in a record: width (2 bytes), height (2), the length of its lines (2), its lines, the length of its index (2), its index.
 * Behind that there may be further objects, with a tag of one byte each, whatever it is; they are passed over. Behind each tag
 * stands the length of its value in the shortest form: a byte up to 127; 81 and a byte from 128 to 255; 82 and two bytes from 256
 * to 65,535 (tags, 81 and 82 are hexadecimal). There are no bytes over in 90, in the template or behind it. So an object has at
 * most 65,540 bytes.
 * What a record's header says, the SIZE fixes:
 *   0  normal: points per cm 200, bits of a coordinate 11, of a direction 8, of a code 4, straight step 24, 256 times perpendicular
 *      over straight step 60, directions in a half turn 32
 *   1  compact: in this order 100, 8, 6, 4, 16, 60, 32
 *
 * This call gives the record of an object: its header has these fields, and its one view the object's width, height, lines and
 * index and no segments. What an object lacks is 0: certificates and device, view number, finger position (unknown), impression and
 * quality. So the view is finger 0, number 0. 32,768 bytes always suffice.
 * Writes bytes. The places of 8 to 10 are counted from the object's first bit. Refuses: 27 for the size, then for the shape of the
 * whole object; then 8 to 10, 19, 20.
 */
fsk_answer fsk_card_read(uint32_t size, const uint8_t *object, size_t object_length, uint8_t *record, size_t record_length);

/*
 * The object of one view of a record, for a card of this size, with nothing behind 90. The record's header must say what the size
 * fixes (28). The view's name, impression, quality and segments are left behind, and so are the record's other views. Reading a
 * written object gives the record of that one view, with 0 for what an object lacks; writing what fsk_card_read gave gives the
 * object back, without what stood behind 90. An object is shorter than the record that its view stands in, so as many bytes as the
 * record has always suffice.
 * finger, number: the view. Writes bytes. Refuses: 27, 1 to 12, 13, 28, 20.
 */
fsk_answer fsk_card_write(uint32_t size, const uint8_t *record, size_t record_length, uint32_t finger, uint32_t number,
                          uint8_t *object, size_t object_length);

/*
 * The low bytes of a RUN of start coordinates: the x of each line's start, line by line, or the y. At compact size a coordinate has
 * one byte. Where an image has more than 255 points along x, its lines are put in the order of x, and each has just the low byte of
 * it; likewise with y. Whoever reads them adds 256 wherever a byte is below the one before it. So a run starts at 255 at most,
 * never falls, and rises by 255 at most in a step; it may be empty. Half as many bytes as the run has always suffice.
 * run: 16-bit numbers, high byte first: two bytes each. Writes bytes. Refuses: 29, 20.
 */
fsk_answer fsk_low_bytes(const uint8_t *run, size_t run_length, uint8_t *bytes, size_t bytes_length);

/*
 * The run of such low bytes: each number is the byte and 256 for every drop up to it; an equal byte is no drop. Of what
 * fsk_low_bytes wrote it is the run again, and fsk_low_bytes gives the bytes back. Twice as many bytes as are lent always suffice.
 * Writes 16-bit numbers as bytes, high byte first: two bytes each. The answer's length counts these numbers, not the bytes. Where
 * the output has an odd number of bytes, the last one stays as it was. Refuses: 29, 20.
 */
fsk_answer fsk_from_low_bytes(const uint8_t *bytes, size_t bytes_length, uint8_t *run, size_t run_length);

/*
 * An ORDER writes a new record to a second buffer; the old one is only read. It names a view (finger, number) and the count of
 * lines that it was made for: where the view has another count of lines by now, it is refused with 14. So a removal that comes
 * again after it was accepted is refused, and nothing is lost. All that is not ordered stays; but in a view with an index, the
 * index is written at the least width that holds it, so that a record may become longer. 32,768 bytes always suffice. fsk_holds
 * tells which record holds after an order, or after a list of them; it is what the next order is for.
 *
 * How the work is split does not matter, where all orders are accepted: lines removed in two orders, the second by the numbers that are
 * then theirs, leave the bytes that one order for all of them leaves; orders on two views leave the same bytes whichever come first; a
 * join and a part of the same two lines, either one first, leave the record as it was, but for the view's index, which then has its
 * least width.
 */

/*
 * Removes lines from a view; those behind them move up and get new numbers, and a removed line leaves all lists of neighbours.
 * A segment of another type than local quality or pores stands in the way (16). Those of local quality are carried along as they are,
 * whether their payloads are right or not. From those of pores the removed lines' pores go, while the other lines' pores, the
 * resolution and the bits of an element stay; but where a payload of pores is not right, or is for another number of lines, nothing is
 * removed (26).
 * lines: their numbers, counted from 0 and rising, as 16-bit numbers, high byte first: two bytes each.
 * Writes bytes. Refuses: 1 to 12, 13, 14, 15, 16, 26, 19, 20.
 */
fsk_answer fsk_remove(const uint8_t *record, size_t record_length, uint32_t finger, uint32_t number, uint32_t count,
                      const uint8_t *lines, size_t lines_length, uint8_t *second, size_t second_length);

/*
 * Makes two lines of a view neighbours; a line may be its own neighbour.
 * Writes bytes. Refuses: 1 to 12, 13, 14, 17, 15, 18, 19, 20.
 */
fsk_answer fsk_join(const uint8_t *record, size_t record_length, uint32_t finger, uint32_t number, uint32_t count, uint32_t line,
                    uint32_t other, uint8_t *second, size_t second_length);

/*
 * Makes two lines of a view neighbours no more.
 * Writes bytes. Refuses: 1 to 12, 13, 14, 17, 15, 18, 19, 20.
 */
fsk_answer fsk_part(const uint8_t *record, size_t record_length, uint32_t finger, uint32_t number, uint32_t count, uint32_t line,
                    uint32_t other, uint8_t *second, size_t second_length);

/*
 * Joins and parts lines of a view, many pairs in one call. What comes of it is what comes of giving the orders singly, by fsk_join and
 * fsk_part, each to the record that the one before left and with as much room; but the new record is written once. Where one of them
 * would be refused that way, 19 and 20 included, the call is refused with that number, place is that order's in the list, counted from
 * 0, and none of the others is carried out either.
 * pairs: the orders, six bytes each, which are three 16-bit numbers, high byte first: 0 for join or 1 for part, then the two lines.
 * There is at least one order (and there are at most 4,294,967,296, so that a place has 32 bits), or else it is 25.
 * Writes bytes. Refuses: 1 to 12, 13, 14, 17, 25 over the whole list; then order by order 15, 18, 19, 20.
 */
fsk_answer fsk_pairs(const uint8_t *record, size_t record_length, uint32_t finger, uint32_t number, uint32_t count,
                     const uint8_t *pairs, size_t pairs_length, uint8_t *second, size_t second_length);

/*
 * The record that now holds after an order.
 *   second  1: it is the first bytes of the second buffer. 0: it is the whole old record.
 *   length  how many bytes it has.
 */
typedef struct {
    uint32_t second;
    size_t length;
} fsk_held;

/*
 * Which record now holds after an order: the old one, or what the order wrote to a second buffer. number and length are those of the
 * order's answer. The second buffer's first bytes hold if the order's number is 0 and its length fits the buffer, else the whole old
 * record does. Nothing is written, and nothing is refused.
 */
fsk_held fsk_holds(const uint8_t *old, size_t old_length, const uint8_t *second, size_t second_length, uint32_t number,
                   size_t length);

#ifdef __cplusplus
}
#endif

#endif
