/* The two-level headword analyser for C.
 *
 * A grammar is an image: 1 to 128 blocks of 512 bytes. Every call below but headwords_seal, which looks at the length
 * alone, checks the image it is given, whole, before anything else. Nothing is kept between calls: no allocation, no
 * global state, no locale, so any number of threads may call at once on images that none of them writes.
 *
 * An image has form 1 or form 2, and every call takes both. In form 1 an entry has one way on: it ends the path, or the path
 * goes on with one lexicon. In form 2 it may end the path, go on with any lexicons, or both, so that a choice of suffixes
 * needs no empty entries. Both have one account of what a reading is; headwords_convert takes one form to the other.
 *
 * Letters, pairs and entries are numbers of the grammar: letters from 1, the boundary, so that a word has letters from 2
 * on; pairs and entries from 0. The command lists them: headwords list letters, pairs, entries. headwords_spell gives the
 * letters of a word as it is written.
 *
 * A reading is a path through the lexicon and a pairing that spells the path's forms and the word, and that every rule
 * lets pass: each rule is fed the boundary pair, then the pairs of the pairing, then the boundary pair again, and has to
 * end in a final state without coming to state 0. So a rule that comes to 0 on the first boundary pair leaves no word
 * and no path a reading; that is an answer and no refusal.
 *
 * Readings are listed in step order, by the first number in which their step lists differ. A step list has the pairs and the
 * path's entries, each entry where it opens: as soon as the last letter of the one before is paired. In form 2 it has the
 * path's ending too, where the next entry would open, and an ending comes before every entry.
 *
 * What the caller owes, and no call can test:
 *   - each pointer is to at least as many bytes as the length after it says, and is not NULL, even where the length is 0;
 *   - the ranges lent to one call do not overlap, save that two ranges that are only read may;
 *   - no other thread writes to a lent range during the call, and none reads one that the call may write;
 *   - 256 kilobytes of stack are free, and for headwords_analyse_words 512.
 *
 * Every reply is one number r. r % 4 == 3 is a refusal, numbered r / 4. The tests, in the order in which they are made:
 *    1  image length 0, over 65,536, or no multiple of 512
 *    2  a check or block number is wrong
 *    3  form (1 or 2), counts, block total, kinds, record counts or unused block bytes are not as laid down; over 31 sets; the
 *       block of sets missing, or there though no set is counted
 *    4  a code point is 0, 55296-57343, or repeated
 *    5  a pair breaks its rule or is repeated
 *    6  a rule table's counts, column sides, marks or next states are out of range, a side names a missing set, or a byte
 *       after its last row is not 0; or a set has a letter above L
 *    7  for a listed or the boundary pair a rule has no matching column, or two narrowest
 *    8  lexicon counts do not add up to the entries, or an entry breaks its layout: in form 2, by an end mark over 1, a bit for
 *       a missing lexicon, or neither mark nor bit as well
 *   14  an entry can never be spelled: a letter of its form is the lexical side of no pair
 *   15  an image to be converted to form 1 has an entry with more than one way on, an ending counted as a way
 *   16  the converted image would have over 128 blocks
 *   17  the target is not as long as the converted image
 *    9  word length 0 or over 32; where the word is code points, an odd count of bytes too
 *   10  a word letter outside 2-L
 *   11  path of 0 or over 16 entries, or an odd count of bytes
 *   12  no such entry, or the path is not linked through the lexicon, or may not stop at its last entry
 *   13  pairing length 0 or over 40, or no such pair
 *   19  a text that is not of the grammar of written rules, has over 32 rules, or a context over 64 bytes or with brackets
 *       nested deeper than 8
 *   20  a written pair number that is neither below P nor 255, or 255 as a rule's own pair
 *   23  a code point with no letter, or with letter 1
 *   24  an output shorter than the word
 * A call makes those that its declaration below names, in the order in which it names them, each over the whole image, word,
 * path, pairing or text before the next; the first that fails is the one told. A refused call writes nothing.
 *
 * What a call can cost at worst: every call ends, and all but the listings within a few milliseconds. A listing goes
 * through the ways in which entries and pairs may follow each other. Where that turns out long, it remembers the dead ends
 * that it has met, so that empty entries in a circle or letters that may come, go or stand take milliseconds too. But
 * where rules remember what was read, no two ways come to the same end: ten entries of one letter in a circle, spelled
 * alike, leave 10 to the 16th ways to try, and no call can be interrupted. A program that takes images from people it does
 * not trust makes its calls where they can be ended from outside, say in a process with a limit of time.
 */
#ifndef HEADWORDS_H
#define HEADWORDS_H

#include <stddef.h>
#include <stdint.h>

/* The version of this header and of the library that it is handed over with. A call that is left out or changed raises the
 * first number, a call more the second. */
#define HEADWORDS_VERSION_MAJOR 1
#define HEADWORDS_VERSION_MINOR 2
#define HEADWORDS_VERSION_PATCH 0
#define HEADWORDS_VERSION "1.2.0"

#ifdef __cplusplus
extern "C" {
#endif

/* A row: 58 two-byte numbers, the low byte first. Number 0 is the path's length, 1 to 16 its entries, 17 the pairing's
 * length, 18 to 57 its pairs; unused places hold 65535. Row k of a buffer is its bytes 116k to 116k + 115. */
#define HEADWORDS_ROW_BYTES 116

/* What r % 4 says of a listing, and n or k, which is r / 4. */
enum { HEADWORDS_NONE = 0, HEADWORDS_ALL = 1, HEADWORDS_MORE = 2, HEADWORDS_REFUSED = 3 };

/* All readings of a word, given as one byte a letter, in step order, each once, as rows in the lent buffer of
 * rows_length / 116 rows.
 *   4n + 1  all n readings are in rows 0 to n - 1
 *   4n + 2  there are more readings than the buffer has rows; it has the first n, and n is all its rows
 *   0       there is no reading; nothing is written
 *   4k + 3  refused (1 to 8, 14, 9 or 10); nothing is written
 * No byte past row n - 1 changes. */
uint64_t headwords_analyse(const uint8_t *image, size_t image_length, const uint8_t *word, size_t word_length, uint8_t *rows, size_t rows_length);

/* A word among many, as a record: byte 0 is its length, bytes 1 to 32 its letters; those past its length are not looked at. */
#define HEADWORDS_WORD_BYTES 33

/* Many words of one image: headwords_analyse for each, with one image check for all. Word i is record i of words, bytes 33i
 * to 33i + 32, and its reply goes to place i of replies, bytes 8i to 8i + 7, the low byte first, as x86-64 has a uint64_t.
 * There are n words, as many as whole records or as whole places, whichever are fewer. Each has an equal share of the rows,
 * s = rows_length / 116 / n of them, and share i begins with row s * i. Reply and rows of a word are those of
 * headwords_analyse with the share as its buffer.
 *   4n + 1  each of the n words has its reply and its rows
 *   4k + 3  refused (1 to 8 or 14); nothing is written
 * A word that is refused has 4k + 3 as its reply (k is 9, for a length byte over 32 too, or 10), and the others are answered
 * all the same. No byte changes past the last place, past the last share, or in a share past the word's rows. Of no words the
 * reply is 1; with fewer rows than words s is 0, so that a word with readings gets 2, which is more and no row.
 *
 *     uint8_t words[2][HEADWORDS_WORD_BYTES] = {{3, 5, 7, 8}, {5, 5, 7, 3, 4, 6}}; // luz and luces by luz
 *     uint8_t rows[2 * 8 * HEADWORDS_ROW_BYTES];                                   // 8 rows a word
 *     uint64_t replies[2];
 *     headwords_analyse_words(image, image_length, words[0], sizeof words, (uint8_t *)replies, sizeof replies, rows, sizeof rows);
 *     // 4 * 2 + 1; replies[0] is 4 * 1 + 1, with row 0; replies[1] is 4 * 2 + 1, with rows 8 and 9
 *
 * Image and lexicon are gone through once a call, and with more than a few words in such a way that each opens few entries:
 * by the Spanish sample and 1,000 words a call a word with a reading took 9,300 instructions, where headwords_analyse took
 * 440,000, on a build by an older Rattle. A call of one word costs what headwords_analyse does. A word that is long to search
 * holds up all others. */
uint64_t headwords_analyse_words(const uint8_t *image, size_t image_length, const uint8_t *words, size_t words_length, uint8_t *replies, size_t replies_length, uint8_t *rows, size_t rows_length);

/* The letters of a word as it is written, which is given as code points, two bytes each, the low byte first.
 *   4n + 1  the word has n letters, 1 to 32, and they are in letters[0] to letters[n - 1]; no byte past them changes
 *   4k + 3  refused (1 to 8, 14, 9, 23 or 24); nothing is written
 * A code point of the grammar's alphabet gives its own letter and is never folded. Another is folded first and then looked
 * up: 0 to 383 by Unicode's simple lower-case mapping, so that U+00C9 becomes U+00E9, U+0130 becomes U+0069 and U+0178
 * becomes U+00FF; above 383 nothing is folded. An accent with a code point of its own is not joined with the letter before it.
 *
 * By luz, whose letters from 1 on are # + c e l s u z Z, LUCES and Luces spell luces, and Luz spells luz:
 *
 *     const uint8_t points[] = {'L', 0, 'u', 0, 'z', 0};
 *     uint8_t word[32];
 *     headwords_spell(image, image_length, points, sizeof points, word, sizeof word); // 4 * 3 + 1, and word has 5 7 8
 *
 * Z is a letter there, and stays: luZ spells luZ, and so does LUZ, which as a written word has no reading. Whoever wants LUZ
 * read as luz lowers such words before the call, or gives that letter of the grammar a code point that no word is written
 * with.
 *
 * What is spelled passes tests 9 and 10, so headwords_analyse refuses it for neither. This call checks the image, whole, as
 * each does, which costs far more than the spelling. But a code point's letter depends on nothing else in the word: so for
 * many words of one image ask for each code point once, as a word of its own, and keep the answers. */
uint64_t headwords_spell(const uint8_t *image, size_t image_length, const uint8_t *points, size_t points_length, uint8_t *letters, size_t letters_length);

/* All readings with a path, given as two bytes to an entry number, the low byte first. Replies and rows as those of
 * headwords_analyse; refused with 1 to 8, 14, 11 or 12. */
uint64_t headwords_generate(const uint8_t *image, size_t image_length, const uint8_t *path, size_t path_length, uint8_t *rows, size_t rows_length);

/* 1 where the image is accepted, 4k + 3 where it is refused (1 to 8, 14). Nothing is written. */
uint64_t headwords_check(const uint8_t *image, size_t image_length);

/* Writes number and check into every block, and nothing else: replies 1. Refused for its length alone: replies 7 (k is
 * 1), and nothing is written. Whether the sealed image is accepted, headwords_check says. */
uint64_t headwords_seal(uint8_t *image, size_t image_length);

/* The grammar of an image in the other form: 1 to 2, or 2 to 1.
 *   1       converted: every byte of the target is written, and the image there is sealed and accepted
 *   4k + 3  refused (1 to 8, 14, 15, 16 or 17); nothing is written
 * Only the form, the records of entries and the checks differ. Letters, pairs, sets, rules, lexicons and entries keep their
 * numbers, entries their forms and glosses, and every word and path gets the same reply and rows. From form 1 to form 2 and
 * back leaves the same bytes. An image of form 2 is converted where each entry has one way on. One of form 1 is, unless it
 * grows past 128 blocks: an entry takes 16 bytes there, 31 to a block, and in form 2 24 bytes, 21 to a block.
 *
 * The target has to be just as long as the converted image. The blocks of entries come last; an accepted image has its form in
 * byte 4, and the count of entries in bytes 14 and 15:
 *
 *     size_t entries = image[14] + 256 * image[15], one = (entries + 30) / 31, two = (entries + 20) / 21;
 *     size_t blocks = image_length / 512 + (image[4] == 1 ? two : one) - (image[4] == 1 ? one : two);
 *     headwords_convert(image, image_length, target, 512 * blocks); // 1 by luz, whose 6 blocks become 6
 *
 * An image is not converted in place: image and target are two ranges. */
uint64_t headwords_convert(const uint8_t *image, size_t image_length, uint8_t *target, size_t target_length);

/* 1 where the path (as for headwords_generate) and the pairing (one byte a pair number) are a reading of the word that they
 * spell, 0 where they are not, 4k + 3 where they are refused (1 to 8, 14, 11 to 13). */
uint64_t headwords_judge(const uint8_t *image, size_t image_length, const uint8_t *path, size_t path_length, const uint8_t *pairing, size_t pairing_length);

/* Whether a pairing (one byte a pair number) obeys every rule of a text of written rules.
 *   1       it obeys each; so it does where the text has no byte, and so no rule
 *   0       it breaks one
 *   4k + 3  refused (1 to 8, 14, 13, 19 or 20)
 * Nothing is written. No path is asked for: the rules look at pairs alone, and the image gives their lexical letters; its
 * own rule tables are checked, as by every call, and decide nothing.
 *
 * The text has 0 to 32 rules, a line each, byte 10 after each or none after the last. A line is an operator, a space, the
 * rule's own pair, a space, the left context, an underscore, the right context, and no other byte. A pair is its number as
 * three digits. The boundary pair, written 255, stands at both ends of the pairing, and may stand in a context. The left
 * context holds where some run of pairs that ends just before the place matches it, the right one where some run that begins
 * just after the place does:
 *   003       pair 3                     .         any pair, the boundary pair too
 *   XY        X and then Y               X|Y       X or Y
 *   X*        none or more of X          (X)       X; brackets may be nested to depth 8
 * A star binds tightest and may follow a star, then comes sequence, then the bar. An empty context holds everywhere; but a
 * star, a side of a bar or brackets may not stand on nothing. A context has at most 64 bytes.
 *   =>   the own pair stands only where both contexts hold
 *   <=   where both hold, a pair with the own pair's lexical letter (the null counts as one) is the own pair
 *   <=>  both of these
 *   /<=  where both hold, the own pair does not stand
 *
 * By luz, Z:c <=> _ +:0 e:e is one line, its pairs being +:0 000, e:e 002, Z:c 006; luces obeys it:
 *
 *     static const char rule[] = "<=> 006 _000002";
 *     const uint8_t luces[] = {3, 5, 6, 0, 2, 4}; // l:l u:u Z:c +:0 e:e s:s
 *     headwords_judge_rules(image, image_length, luces, sizeof luces, (const uint8_t *)rule, sizeof rule - 1); // 1
 */
uint64_t headwords_judge_rules(const uint8_t *image, size_t image_length, const uint8_t *pairing, size_t pairing_length, const uint8_t *text, size_t text_length);

/* The letters of an entry's form, at most 12.
 *   4n + 1  the form has n letters, and they are in letters[0] to letters[n - 1]; no byte past them changes
 *   4n + 2  the form has n letters, and the lent buffer is shorter; nothing is written
 *   4k + 3  refused (1 to 8, 14, 12 where there is no such entry); nothing is written */
uint64_t headwords_form(const uint8_t *image, size_t image_length, size_t entry, uint8_t *letters, size_t letters_length);

#ifdef __cplusplus
}
#endif

#endif
