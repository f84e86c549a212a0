/* The judge of written rules from C: rules that are kept and broken, every refusal at its edge and in its order, and texts that would take long if stars
 * in stars were tried one by one. Usage: rules IMAGE, with the luz grammar */
#define _DEFAULT_SOURCE
#include "calls.h"

enum { SECONDS = 10, MOST_RULES = 32, MOST_CONTEXT = 64, LINE = 4 + 4 + 2 * MOST_CONTEXT + 16 };

static struct bytes luz;

/* Letters # t c i s; pairs t:c t:t i:i s:s, then 0:i 0:s; no rule table, and one entry, t. */
static struct bytes t_c(void)
{
    static uint8_t image[5 * 512];
    static const struct {
        uint8_t kind, count, records[24];
    } blocks[] = {
        {1, 1, {1, 0, 5, 0, 6, 0, 0, 0, 1, 0, 1, 0}},
        {2, 5, {'#', 0, 't', 0, 'c', 0, 'i', 0, 's', 0}},
        {3, 6, {2, 3, 2, 2, 4, 4, 5, 5, 0, 4, 0, 5}},
        {5, 1, {1, 0}},
        {6, 1, {1, 2, 0, 0, 0, 0, 0, 0, 0, 0, 0, 0, 0, 255}},
    };
    for (size_t i = 0; i < 5; i++) {
        image[512 * i + 2] = blocks[i].kind;
        image[512 * i + 3] = blocks[i].count;
        memcpy(image + 512 * i + 4, blocks[i].records, sizeof blocks[i].records);
    }
    headwords_seal(image, sizeof image);
    return (struct bytes){image, sizeof image};
}

enum { T_C, T_T, I_I, S_S, INSERTED_I, INSERTED_S };

/* A rule that a pairing keeps or breaks, without a line end and with one, and beside a rule that is kept. */
static void judged(const char *rule, struct bytes image, struct bytes pairing, uint64_t reply)
{
    char text[4 * LINE];
    judge_rules(rule, image, pairing, TEXT(rule), reply);
    snprintf(text, sizeof text, "%s\n", rule);
    judge_rules(rule, image, pairing, TEXT(text), reply);
    snprintf(text, sizeof text, "=> 000 _\n%s", rule);
    judge_rules(rule, image, pairing, TEXT(text), reply);
    snprintf(text, sizeof text, "%s\n=> 000 _\n", rule);
    judge_rules(rule, image, pairing, TEXT(text), reply);
}

static void operators(void)
{
    struct bytes image = t_c();
    check("t:c", image, 1);
    judged("<=> 000 _002", image, BYTES(T_C, I_I), 1);
    judged("<=> 000 _002", image, BYTES(T_T, I_I), 0);
    judged("<=> 000 _002", image, BYTES(T_C), 0);
    judged("<=> 000 _002", image, BYTES(T_T), 1);
    judged("=> 000 _002", image, BYTES(T_C, I_I), 1);
    judged("=> 000 _002", image, BYTES(T_T, I_I), 1);
    judged("=> 000 _002", image, BYTES(T_C), 0);
    judged("<= 000 _002", image, BYTES(T_C, I_I), 1);
    judged("<= 000 _002", image, BYTES(T_T, I_I), 0);
    judged("<= 000 _002", image, BYTES(T_C), 1);
    judged("/<= 000 _002", image, BYTES(T_C, I_I), 0);
    judged("/<= 000 _002", image, BYTES(T_T, I_I), 1);
    judged("/<= 000 _002", image, BYTES(T_C), 1);
    /* every place is looked at, the last too */
    judged("=> 000 _002", image, BYTES(T_C, I_I, S_S, T_C), 0);
    judged("=> 000 002_", image, BYTES(T_C, S_S, I_I, T_C), 0);
    judged("=> 000 002_", image, BYTES(I_I, T_C, S_S, I_I, T_C), 1);
    judged("<= 000 002_", image, BYTES(I_I, T_C, S_S, I_I, T_T), 0);
    judged("/<= 000 002_", image, BYTES(T_C, T_C, S_S, I_I, T_C), 0);
    /* both contexts have to hold */
    judged("=> 000 003_002", image, BYTES(S_S, T_C, I_I), 1);
    judged("=> 000 003_002", image, BYTES(S_S, T_C, S_S), 0);
    judged("=> 000 003_002", image, BYTES(I_I, T_C, I_I), 0);
    judged("<= 000 003_002", image, BYTES(I_I, T_T, I_I), 1);
    judged("<= 000 003_002", image, BYTES(S_S, T_T, I_I), 0);
    /* the lexical letter and not the pair, nor the surface letter: i:i and 0:i are unlike; the null is a letter */
    judged("<= 002 003_", image, BYTES(S_S, INSERTED_I), 1);
    judged("<= 004 003_", image, BYTES(S_S, I_I), 1);
    judged("<= 004 003_", image, BYTES(S_S, INSERTED_I), 1);
    judged("<= 004 003_", image, BYTES(S_S, INSERTED_S), 0);
    judged("<= 005 003_", image, BYTES(S_S, INSERTED_I), 0);
    /* empty contexts hold everywhere */
    judged("=> 000 _", image, BYTES(T_C), 1);
    judged("/<= 000 _", image, BYTES(T_C), 0);
    judged("/<= 000 _", image, BYTES(T_T), 1);
    judged("<= 000 _", image, BYTES(T_C, I_I), 1);
    judged("<=> 000 _", image, BYTES(T_C, T_T), 0);
}

static void contexts(void)
{
    static const struct {
        const char *rule;
        uint64_t reply;
    } of_sites[] = {
        /* s t:c i s, with the boundary at both ends */
        {"=> 000 003_002", 1},
        {"=> 000 255003_002003255", 1},
        {"=> 000 255_", 0},
        {"=> 000 _255", 0},
        {"=> 000 255._..255", 1},
        {"=> 000 .._...", 1},
        {"=> 000 ..._", 0},
        {"=> 000 _....", 0},
        {"=> 000 255255003_", 0},
        {"=> 000 _002003255255", 0},
        /* none, one or more */
        {"=> 000 001*003_", 1},
        {"=> 000 255003*_", 1},
        {"=> 000 255003003*_", 1},
        {"=> 000 255003003003*_", 0},
        {"=> 000 _002*003*255", 1},
        {"=> 000 _(002003)*255", 1},
        {"=> 000 _(003002)*255", 0},
        {"=> 000 _(002|003)*255", 1},
        {"=> 000 _(002|003)**255", 1},
        {"=> 000 _((002*)*003*)*255", 1},
        {"=> 000 _.*255", 1},
        {"=> 000 255.*_.*255", 1},
        /* a star is of one thing, and a sequence before a bar */
        {"=> 000 _002003*002", 0},
        {"=> 000 _002002*003", 1},
        {"=> 000 _000|002003", 1},
        {"=> 000 _002|000003255", 1},
        {"=> 000 _(002|000)003255", 1},
        {"=> 000 _002(000|003)255", 1},
        {"=> 000 _002000|003255", 0},
        {"=> 000 _000|001|002", 1},
        {"=> 000 _000|001|003", 0},
        {"=> 000 _000*|001", 1},
        {"=> 000 _((((((((002))))))))", 1},
    };
    for (size_t i = 0; i < sizeof of_sites / sizeof *of_sites; i++)
        judged(of_sites[i].rule, t_c(), BYTES(S_S, T_C, I_I, S_S), of_sites[i].reply);
    /* so many times as there are */
    judged("=> 000 255003*_", t_c(), BYTES(S_S, S_S, S_S, S_S, S_S, S_S, T_C), 1);
    judged("=> 000 255(003003)*_", t_c(), BYTES(S_S, S_S, S_S, S_S, S_S, S_S, T_C), 1);
    judged("=> 000 255(003003)*_", t_c(), BYTES(S_S, S_S, S_S, S_S, S_S, T_C), 0);
    judged("=> 000 _(003003)*255", t_c(), BYTES(T_C, S_S, S_S, S_S, S_S, S_S, S_S), 1);
    judged("=> 000 _(003003)*255", t_c(), BYTES(T_C, S_S, S_S, S_S, S_S, S_S), 0);
}

static void on_luz(void)
{
    static const char rule[] = "<=> 006 _000002";
    judged(rule, luz, BYTES(3, 5, 6, 0, 2, 4), 1);
    judged(rule, luz, BYTES(3, 5, 1, 0, 2, 4), 1);
    judged(rule, luz, BYTES(3, 5, 7, 0, 2, 4), 0);
    judged(rule, luz, BYTES(3, 5, 7), 1);
    judged(rule, luz, BYTES(3, 5, 6), 0);
    judged(rule, luz, BYTES(6, 0), 0);
    judged("=> 006 000_\n=> 006 _000", luz, BYTES(6), 0);
}

/* A text on one line, to be told; it stands until the next. */
static const char *on_one_line(const char *text)
{
    static char told[4 * LINE];
    size_t at = 0;
    for (; *text != '\0'; text++)
        at += (size_t)snprintf(told + at, sizeof told - at, *text == '\n' ? "\\n" : "%c", *text);
    return told;
}

/* A text that is refused with 19, by a pairing that is not refused, and with 13 by pairings that are. */
static void no_rules(const char *text)
{
    static const uint8_t long_pairing[41];
    const char *what = on_one_line(text);
    judge_rules(what, luz, BYTES(3, 5, 6), TEXT(text), refused(19));
    judge_rules(what, luz, nothing, TEXT(text), refused(13));
    judge_rules(what, luz, BYTES(3, 5, 8), TEXT(text), refused(13));
    judge_rules(what, luz, (struct bytes){long_pairing, 41}, TEXT(text), refused(13));
    /* with a pair that is not listed before it, and after it */
    char with[4 * LINE];
    snprintf(with, sizeof with, "=> 999 _\n%s", text);
    judge_rules(what, luz, BYTES(3, 5, 6), TEXT(with), refused(19));
    snprintf(with, sizeof with, "%s\n=> 000 255_250", text);
    judge_rules(what, luz, BYTES(3, 5, 6), TEXT(with), refused(19));
}

static void refusals(void)
{
    static const char *none[] = {
        "\n", "\n\n", "=> 000 _\n\n", "\n=> 000 _", "=> 000 _\n\n=> 000 _", " ", "_", "=>", "=> ", "=> 000", "=> 000 ", "=> 000 .", "=> 000_", "=>000 _", "=>  000 _", "=> 000  _", " => 000 _", "=> 000 _ ", "=> 000 _\r",
        "=> 000 _\r\n", "=> 000 _._", "=> 000 __", "= 000 _", "> 000 _", "< 000 _", "<=>> 000 _", "<=/ 000 _", "/=> 000 _", "/<=> 000 _", "==> 000 _", "=< 000 _", "000 _", "=> 00 _", "=> 0000 _", "=> 0a0 _", "=> -01 _", "=> 0.0 _", "=> _",
        "=> 000 *_", "=> 000 _*", "=> 000 _**", "=> 000 _*.", "=> 000 _.|*", "=> 000 _(*)", "=> 000 _(*.)", "=> 000 _|", "=> 000 |._", "=> 000 _.|", "=> 000 _.||.", "=> 000 _(|.)", "=> 000 _(.|)", "=> 000 ()_", "=> 000 _().", "=> 000 _()*", "=> 000 _.|()",
        "=> 000 _(", "=> 000 _)", "=> 000 (_)", "=> 000 _(.", "=> 000 _.)", "=> 000 _(.))", "=> 000 _)(", "=> 000 _0", "=> 000 _00", "=> 000 _0000", "=> 000 _00000", "=> 000 _00.", "=> 000 _0*00", "=> 000 _. .", "=> 000 _+", "=> 000 _?", "=> 000 _[.]", "=> 000 _\x80", "=> 000 \t_",
    };
    for (size_t i = 0; i < sizeof none / sizeof *none; i++)
        no_rules(none[i]);
    judge_rules("a byte 0", luz, BYTES(3), BYTES('=', '>', ' ', '0', '0', '0', ' ', '_', 0), refused(19));
    judge_rules("a byte 0 after the line", luz, BYTES(3), BYTES('=', '>', ' ', '0', '0', '0', ' ', '_', 10, 0), refused(19));

    for (unsigned number = 0; number < 1000; number++) {
        char text[LINE];
        unsigned own = number < 8 ? 1 : refused(20), inner = number == 255 ? 1 : own;
        snprintf(text, sizeof text, "/<= %03u _.......", number);
        judge_rules("an own pair's number", luz, BYTES(3, 5, 6), TEXT(text), own);
        snprintf(text, sizeof text, "=> 007 (.|%03u)*_", number);
        judge_rules("a number in a left context", luz, BYTES(3, 5, 6), TEXT(text), inner);
        snprintf(text, sizeof text, "=> 007 _%03u", number);
        judge_rules("a number in a right context", luz, BYTES(3, 5, 6), TEXT(text), inner);
        judge_rules("a number in a right context, and no pairing", luz, nothing, TEXT(text), refused(13));
    }
    judge_rules("no text", luz, BYTES(3, 5, 6), nothing, 1);
    judge_rules("no text and no pairing", luz, nothing, nothing, refused(13));
}

/* A text with so many bytes in its middle; it stands until the next call. */
static struct bytes around(const char *before, size_t length, const char *filled, const char *after)
{
    static char text[4 * LINE];
    size_t at = (size_t)snprintf(text, sizeof text, "%s", before);
    for (size_t i = 0; i < length; i++)
        text[at + i] = filled[i % strlen(filled)];
    snprintf(text + at + length, sizeof text - at - length, "%s", after);
    return TEXT(text);
}

static void limits(void)
{
    /* a part of the last two is no context */
    static const char *filled[] = {".", ".*", "(.)", "000"};
    for (size_t i = 0; i < sizeof filled / sizeof *filled; i++)
        for (size_t length = 1; length <= 80; length++) {
            uint64_t reply = length > MOST_CONTEXT || (i > 1 && length % 3 > 0) ? refused(19) : 1;
            judge_rules("a left context of some bytes", luz, BYTES(3), around("=> 000 ", length, filled[i], "_"), reply);
            judge_rules("a right context of some bytes", luz, BYTES(3), around("=> 000 _", length, filled[i], "\n"), reply);
        }
    for (size_t depth = 1; depth < 30; depth++) {
        char closed[32] = {0};
        memset(closed, ')', depth);
        char rest[64];
        uint64_t reply = depth > 8 ? refused(19) : 1;
        snprintf(rest, sizeof rest, ".%s_", closed);
        judge_rules("brackets in a left context", luz, BYTES(3), around("=> 000 ", depth, "(", rest), reply);
        snprintf(rest, sizeof rest, ".%s(.)*", closed);
        judge_rules("brackets in a right context", luz, BYTES(3), around("=> 000 _(.)(.)", depth, "(", rest), reply);
    }
    /* both contexts have 64 bytes, so that the line has more */
    char left[MOST_CONTEXT + 16];
    snprintf(left, sizeof left, "=> 000 %.*s_", MOST_CONTEXT, (const char *)around("", MOST_CONTEXT, ".", "").at);
    judge_rules("two contexts of 64 bytes", luz, BYTES(3), around(left, MOST_CONTEXT, ".", "\n"), 1);

    static uint8_t text[256 * LINE], pairing[41];
    for (size_t count = 0; count <= 256; count++)
        for (size_t line_end = 0; line_end < 2; line_end++) {
            size_t at = 0;
            for (size_t i = 0; i < count; i++)
                at += (size_t)snprintf((char *)text + at, sizeof text - at, "=> 000 _\n");
            struct bytes rules = {text, count > 0 ? at - line_end : 0};
            judge_rules("so many rules", luz, BYTES(3), rules, count > MOST_RULES ? refused(19) : 1);
            if (count > 0 && count <= MOST_RULES) {
                memcpy(text + at - 9, "/<= 003 _", 9);
                judge_rules("so many rules, the last broken", luz, BYTES(3), (struct bytes){text, at}, 0);
            }
        }
    for (size_t length = 0; length <= 41; length++)
        judge_rules("so many pairs", luz, (struct bytes){pairing, length}, TEXT("=> 000 _"), length == 0 || length > 40 ? refused(13) : 1);
}

static void late(int signal)
{
    (void)signal;
    printf("%s: not answered within %d seconds\n", called, SECONDS);
    fflush(stdout);
    _exit(1);
}

/* 32 rules of contexts with 58 bytes, by 40 pairs: each context holds everywhere, and with two boundary pairs after it nowhere. */
static void hostile(void)
{
    static const char *contexts[] = {
        "((((((((.*)*)*)*)*)*)*)*)*********************************",
        "(((((((.*.*)*.*)*.*)*.*)*.*)*.*)*.*)*.*.*.*.*.*.*.*.*.*.*.",
        "(.|..|...|....|.....|......|.......|........|.........)*.*",
        "((.*|.*)*|(.*|.*)*|((.*|.*)*|(.*|.*)*)*)*.*.*.*.*.*.*.*.*.",
        ".*.*.*.*.*.*.*.*.*.*.*.*.*.*.*.*.*.*.*.*.*.*.*.*.*.*.*.*.*",
    };
    static char text[MOST_RULES * LINE];
    static uint8_t pairing[40];
    memset(pairing, 3, sizeof pairing);
    alarm(SECONDS);
    for (size_t i = 0; i < sizeof contexts / sizeof *contexts; i++)
        for (size_t never = 0; never < 2; never++)
            for (size_t forbids = 0; forbids < 2; forbids++) {
                size_t at = 0;
                for (size_t k = 0; k < MOST_RULES; k++)
                    at += (size_t)snprintf(text + at, sizeof text - at, "%s 003 %s%s_%s%s\n", forbids ? "/<=" : "=>", never ? "255255" : "", contexts[i], contexts[i], never ? "255255" : "");
                judge_rules(contexts[i], luz, (struct bytes){pairing, sizeof pairing}, (struct bytes){(uint8_t *)text, at}, never == forbids);
            }
    alarm(0);
}

/* A million bytes of one thing, as a text and as either context: too many to compare the pages around them. */
static void long_texts(void)
{
    static const char *begun[] = {"", "=> 000 ", "=> 000 _", "=> 000 .", "=> 000 _(."}, *filled[] = {"(", ")", ".", "*", "|", ".|", "000", "_", " ", "\n", "=> 000 _\n"};
    static uint8_t text[1000000];
    alarm(SECONDS);
    for (size_t i = 0; i < sizeof begun / sizeof *begun; i++)
        for (size_t j = 0; j < sizeof filled / sizeof *filled; j++) {
            size_t at = strlen(begun[i]);
            memcpy(text, begun[i], at);
            for (size_t k = 0; at + k < sizeof text; k++)
                text[at + k] = (uint8_t)filled[j][k % strlen(filled[j])];
            called = "a million bytes";
            answered(headwords_judge_rules(luz.at, luz.length, (const uint8_t[]){3}, 1, text, sizeof text), refused(19));
        }
    alarm(0);
}

int main(int argc, char **argv)
{
    static uint8_t image[65537];
    FILE *file = argc == 2 ? fopen(argv[1], "rb") : NULL;
    if (file == NULL)
        return 2;
    luz = (struct bytes){image, fread(image, 1, sizeof image, file)};
    fclose(file);
    make_room(IMAGE, luz.length);
    make_room(GIVEN, 256 * LINE);
    make_room(PAIRING, 64);
    watch();
    signal(SIGALRM, late);
    operators();
    contexts();
    on_luz();
    refusals();
    limits();
    hostile();
    long_texts();
    return failures > 0;
}
