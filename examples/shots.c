/*
 * shots: the patch record of the shots that a controller exports.
 *
 *     shots [-f] [-e EDITION] [FILE]
 *
 * reads text, from the file or from standard input, with a shot on each line: point,northing,easting,elevation,description. The northing comes first;
 * elevation and description are not looked at, and may be missing. The numbers are metres; with -f, or where a heading in front says so, feet. It
 * writes the record to standard output. What is refused is said in words on standard error, with its line, and then nothing is written.
 * Exit status: 0, 1 where the shots are refused, 2 where a file cannot be read or written, on wrong usage, or where -e is missing.
 *
 * Which feet they are is said by -e: 1 for US survey feet, 2 for international feet, in use after 2022. It is never guessed: feet without -e are not
 * read, and the program asks for it. Where a heading says it too, the two must agree. Metres need no -e, and are the same with either.
 *
 * The C library makes doubles of the decimals. All else about a coordinate is asked of patch_take_runs: none is rounded or compared here. It also
 * knows which editions there are.
 */
#define _XOPEN_SOURCE 700
#include "patch.h"

#include <ctype.h>
#include <stdio.h>
#include <stdlib.h>
#include <string.h>
#include <strings.h>
#include <unistd.h>

#define BLANKS " \t"

/* one shot more than a patch has is enough to be refused; the others are only counted */
enum { KEPT = PATCH_SHOTS_MOST + 1 };

struct job {
    const char *name;
    uint8_t feet;              /* the unit, as patch_take_runs wants it */
    int told;                  /* -e was given */
    size_t edition;            /* what it says, as patch_take_runs wants it */
    int begun, cut;            /* a line that is not blank has been; the line in hand was longer than its text */
    size_t line, found, count; /* the number of the line in hand; the shots so far; those of them that are kept */
    char text[4096];           /* the line in hand, without its end */
    size_t lines[KEPT];        /* the line of each shot */
    double values[2 * KEPT];   /* its easting and northing */
};

/* the line in hand cannot be read as a shot */
static _Noreturn void refuse(const struct job *job, const char *words)
{
    fprintf(stderr, "%s:%zu: refused: %s\n", job->name, job->line, words);
    exit(1);
}

/* what the words of a heading mean */
enum { FEET = 1, METRES = 2, SURVEY = 4, INTERNATIONAL = 8, WHICH = SURVEY | INTERNATIONAL, OTHER = 16, NORTH = 32, EAST = 64 };

static const struct {
    const char *word;
    int meaning;
} meanings[] = {
    {"ft", FEET}, {"feet", FEET}, {"foot", FEET}, {"us", SURVEY}, {"survey", SURVEY},
    {"usft", FEET | SURVEY}, {"ftus", FEET | SURVEY}, {"sft", FEET | SURVEY}, {"ussft", FEET | SURVEY},
    {"int", INTERNATIONAL}, {"intl", INTERNATIONAL}, {"international", INTERNATIONAL}, {"ift", FEET | INTERNATIONAL},
    {"m", METRES}, {"metre", METRES}, {"metres", METRES}, {"meter", METRES}, {"meters", METRES},
    {"mm", OTHER}, {"cm", OTHER}, {"km", OTHER}, {"inch", OTHER}, {"inches", OTHER}, {"yards", OTHER}, {"chains", OTHER}, {"links", OTHER},
    {"lat", OTHER}, {"latitude", OTHER}, {"lon", OTHER}, {"longitude", OTHER}, {"deg", OTHER}, {"degrees", OTHER},
    {"n", NORTH}, {"north", NORTH}, {"northing", NORTH}, {"y", NORTH},
    {"e", EAST}, {"east", EAST}, {"easting", EAST}, {"x", EAST},
};

/* what a word means, by itself; only a whole word counts, so there are no feet in a shift */
static int word_meaning(const char *word, size_t length)
{
    for (size_t at = 0; at < sizeof meanings / sizeof meanings[0]; at++)
        if (strncasecmp(word, meanings[at].word, length) == 0 && meanings[at].word[length] == '\0')
            return meanings[at].meaning;
    return 0;
}

/* The same of words that are written as one, as IntlFt, each the longest that there is. None of them is a single letter: there is no US in use. */
static int words_meaning(const char *word, size_t length)
{
    static const size_t longest = sizeof "international" - 1;
    int all = 0;
    if (word_meaning(word, length))
        return word_meaning(word, length);
    while (length > 0) {
        size_t front = length < longest ? length : longest;
        while (front >= 2 && !word_meaning(word, front))
            front--;
        if (front < 2)
            return 0;
        all |= word_meaning(word, front);
        word += front;
        length -= front;
    }
    return all;
}

/* The same, also behind the name of a column: NorthingFt is the northing, in feet. */
static int joined_meaning(const char *word, size_t length)
{
    static const char *const columns[] = {"northing", "easting"};
    for (size_t at = 0; at < sizeof columns / sizeof columns[0]; at++) {
        size_t front = strlen(columns[at]);
        if (length > front && strncasecmp(word, columns[at], front) == 0)
            return word_meaning(word, front) | words_meaning(word + front, length - front);
    }
    return words_meaning(word, length);
}

/* All that the words of a field mean. The loose meanings are those that count only of a word for feet, or of one directly before or after it. */
static int meaning(const char *text, int loose)
{
    int all = 0, before = 0;
    while (*text != '\0') {
        size_t length = 0;
        while (isalpha((unsigned char)text[length]) || (unsigned char)text[length] >= 0x80)
            length++;
        if (length > 0) {
            int here = joined_meaning(text, length);
            all |= (before | here) & FEET ? before | here : here & ~loose;
            before = here;
        }
        text += length > 0 ? length : 1;
    }
    return all;
}

/* the fields of a line; the last is all that is left of it, null where nothing is */
enum { POINT, NORTHING, EASTING, LEFT, FIELDS };

/* Takes a field off the front of a text, without the blanks and quotes around it. What is behind its comma, null where it has none. */
static char *take_field(char *text, char **field)
{
    text += strspn(text, BLANKS);
    char *end = text;
    if (*end == '"')
        end += 1 + strcspn(end + 1, "\"");
    end += strcspn(end, ",");
    char *behind = *end == ',' ? end + 1 : NULL;
    while (end > text && strchr(BLANKS, end[-1]))
        end--;
    if (end > text + 1 && *text == '"' && end[-1] == '"') {
        text++;
        end--;
    }
    *end = '\0';
    *field = text;
    return behind;
}

static void take_fields(const struct job *job, char *text, char *fields[FIELDS])
{
    for (int at = POINT; at <= EASTING; at++) {
        if (!text)
            refuse(job, "a shot is point,northing,easting,elevation,description, with commas between them");
        text = take_field(text, &fields[at]);
        if (!text && job->cut)
            refuse(job, "the line is too long");
    }
    fields[LEFT] = text;
}

/* Is the field a decimal number, all of it? The C library would read hexadecimal ones too. */
static int number(const char *field, double *value)
{
    char *end;
    *value = strtod(field, &end);
    return end != field && end[strspn(end, BLANKS)] == '\0' && !strpbrk(field, "xX");
}

/* Is the field the name of a column? A letter comes before any digit there: a number with a slip in it is no name. */
static int column(const char *field)
{
    while (*field != '\0' && !isalnum((unsigned char)*field))
        field++;
    return isalpha((unsigned char)*field) && !strchr(field, '"');
}

/* Where a heading says which feet, -e says the same. */
static void check_foot(const struct job *job, int all)
{
    if ((all & WHICH) == WHICH)
        refuse(job, "the heading says both US survey feet and international feet");
    if ((all & SURVEY) && job->told && job->edition == PATCH_INTERNATIONAL_FOOT)
        refuse(job, "the heading says US survey feet, and -e 2 says international feet");
    if ((all & INTERNATIONAL) && job->told && job->edition == PATCH_SURVEY_FOOT)
        refuse(job, "the heading says international feet, and -e 1 says US survey feet");
}

/* A heading fixes the unit. It is refused where the numbers under it would be read as what they are not. International coordinates are feet; those of
   a survey, or of the US, may be metres. */
static void take_heading(struct job *job, char *fields[FIELDS])
{
    int north = meaning(fields[NORTHING], 0), east = meaning(fields[EASTING], 0);
    int all = meaning(fields[POINT], WHICH) | north | east;
    for (char *left = fields[LEFT], *field; left; all |= meaning(field, WHICH))
        left = take_field(left, &field);
    if (all & INTERNATIONAL)
        all |= FEET;
    if (job->cut)
        refuse(job, "the line is too long");
    if ((north & (NORTH | EAST)) == EAST || (east & (NORTH | EAST)) == NORTH)
        refuse(job, "the heading has the easting before the northing");
    if ((north | east) & OTHER)
        refuse(job, "the heading says a unit that is neither metres nor feet");
    if ((all & METRES) && (all & FEET))
        refuse(job, "the heading says both metres and feet");
    if ((all & METRES) && job->feet)
        refuse(job, "the heading says metres, and -f says feet");
    if (all & FEET)
        job->feet = 1;
    if (job->feet)
        check_foot(job, all);
}

/* a line that is not blank: a shot or, in front of all others, the heading */
static void take_line(struct job *job, char *text)
{
    char *fields[FIELDS];
    double north, east;
    take_fields(job, text, fields);
    int has_north = number(fields[NORTHING], &north), has_east = number(fields[EASTING], &east);
    if (!job->begun && !has_north && !has_east && column(fields[NORTHING]) && column(fields[EASTING])) {
        take_heading(job, fields);
    } else if (!has_north || !has_east) {
        refuse(job, has_north ? "the easting is not a number" : "the northing is not a number");
    } else if (++job->found <= KEPT) {
        job->lines[job->count] = job->line;
        job->values[2 * job->count] = east;
        job->values[2 * job->count + 1] = north;
        job->count++;
    }
    job->begun = 1;
}

/* Reads a line that ends in LF, CR LF or CR. False where there is none. */
static int read_line(struct job *job, FILE *file)
{
    size_t length = 0;
    int c;
    job->line++;
    job->cut = 0;
    while ((c = getc(file)) != EOF && c != '\n' && c != '\r') {
        if (c == '\0')
            refuse(job, "this is no text, or text with two bytes to a character");
        if (length < sizeof job->text - 1)
            job->text[length++] = (char)c;
        else
            job->cut = 1;
    }
    job->text[length] = '\0';
    if (c == '\r' && (c = getc(file)) != '\n')
        ungetc(c, file);
    if (ferror(file)) {
        perror(job->name);
        exit(2);
    }
    return c != EOF || length > 0;
}

static void read_job(struct job *job, FILE *file)
{
    static const char mark[] = "\xef\xbb\xbf"; /* of byte order, as some programs put it in front */
    while (read_line(job, file)) {
        char *text = job->text;
        if (job->line == 1 && strncmp(text, mark, strlen(mark)) == 0)
            text += strlen(mark);
        if (text[strspn(text, BLANKS)] != '\0')
            take_line(job, text);
    }
}

/* what the library says of three places alone */
static uint8_t ask(const struct job *job, const double *a, const double *b, const double *c)
{
    const uint8_t units[] = {job->feet, job->feet, job->feet};
    const double values[] = {a[0], a[1], b[0], b[1], c[0], c[1]};
    int32_t shots[PATCH_COORDINATES_MOST];
    size_t count;
    return patch_take_runs(job->edition, units, 3, values, 6, shots, &count);
}

static const double corners[3][2] = {{0, 0}, {1, 0}, {0, 1}};

/* the first coordinate that is refused so where all others are 0; the northing is the first of a line */
static void blame_coordinate(const struct job *job, uint8_t refusal, const char *words)
{
    for (size_t at = 0; at < job->count; at++)
        for (int axis = 1; axis >= 0; axis--) {
            double place[2] = {0, 0};
            place[axis] = job->values[2 * at + axis];
            if (ask(job, place, corners[0], corners[0]) == refusal) {
                fprintf(stderr, "%s:%zu: refused %u: the %s is %s\n", job->name, job->lines[at], (unsigned)refusal, axis == 1 ? "northing" : "easting", words);
                return;
            }
        }
}

/* the first shot at the place of an earlier one. Two that are the same are refused so with every corner; two others are on two corners at most. */
static void blame_pair(const struct job *job, uint8_t refusal)
{
    for (size_t later = 1; later < job->count; later++)
        for (size_t at = 0; at < later; at++) {
            const double *a = job->values + 2 * at, *b = job->values + 2 * later;
            if (ask(job, a, b, corners[0]) == refusal && ask(job, a, b, corners[1]) == refusal && ask(job, a, b, corners[2]) == refusal) {
                fprintf(stderr, "%s:%zu: refused %u: the same place as line %zu, to the millimetre\n", job->name, job->lines[later], (unsigned)refusal, job->lines[at]);
                return;
            }
        }
}

/* says what the library refuses; the line to blame is found by the same call */
static int refused(const struct job *job, uint8_t refusal)
{
    switch (refusal) {
    case PATCH_EDITION:
        fprintf(stderr, "%s: refused 17: there is no edition %zu; 1 is US survey feet, 2 is international feet\n", job->name, job->edition);
        break;
    case PATCH_COUNT: fprintf(stderr, "%s: refused 1: %zu shot%s; a patch has 3 to 10\n", job->name, job->found, job->found == 1 ? "" : "s"); break;
    case PATCH_NOT_FINITE: blame_coordinate(job, refusal, "not a finite number of millimetres"); break;
    case PATCH_RANGE: blame_coordinate(job, refusal, "more than 1,000 m from the origin; give the shots from a local origin of the job"); break;
    case PATCH_EQUAL: blame_pair(job, refusal); break;
    case PATCH_LINE: fprintf(stderr, "%s: refused 4: all shots are on one straight line\n", job->name); break;
    default: fprintf(stderr, "%s: refused %u\n", job->name, (unsigned)refusal);
    }
    return 1;
}

static int write_record(const struct job *job)
{
    uint8_t units[KEPT], record[PATCH_PATCH_BYTES];
    int32_t shots[PATCH_COORDINATES_MOST];
    size_t count, size;
    memset(units, job->feet, sizeof units);
    uint8_t refusal = patch_take_runs(job->edition, units, job->count, job->values, 2 * job->count, shots, &count);
    if (refusal == 0)
        refusal = patch_write_patch(shots, 2 * count, record, sizeof record, &size);
    if (refusal != 0)
        return refused(job, refusal);
    if (fwrite(record, 1, size, stdout) == size && fflush(stdout) == 0)
        return 0;
    perror("standard output");
    return 2;
}

/* Is the text a whole number, nothing but digits, that a size_t has room for? */
static int whole(const char *text, size_t *value)
{
    *value = 0;
    if (*text == '\0')
        return 0;
    for (; isdigit((unsigned char)*text); text++) {
        size_t digit = (size_t)(*text - '0');
        if (*value > (SIZE_MAX - digit) / 10)
            return 0;
        *value = 10 * *value + digit;
    }
    return *text == '\0';
}

/* False on wrong usage. Where -e is given twice, it says the same. */
static int take_options(struct job *job, int argc, char **argv)
{
    int option;
    size_t edition;
    while ((option = getopt(argc, argv, "fe:")) != -1) {
        if (option == 'f') {
            job->feet = 1;
        } else if (option == 'e' && whole(optarg, &edition) && (!job->told || edition == job->edition)) {
            job->told = 1;
            job->edition = edition;
        } else {
            return 0;
        }
    }
    return argc - optind <= 1;
}

int main(int argc, char **argv)
{
    static struct job job;
    if (!take_options(&job, argc, argv)) {
        fprintf(stderr, "usage: %s [-f] [-e EDITION] [FILE]; -f says feet, EDITION which: 1 US survey feet, 2 international feet\n", argv[0]);
        return 2;
    }
    FILE *file = optind < argc ? fopen(argv[optind], "rb") : stdin;
    job.name = optind < argc ? argv[optind] : "standard input";
    if (!file) {
        perror(job.name);
        return 2;
    }
    read_job(&job, file);
    fclose(file);
    if (job.feet && !job.told) {
        fprintf(stderr, "%s: these are feet; say which: -e 1 for US survey feet, -e 2 for international feet\n", job.name);
        return 2;
    }
    if (!job.told)
        job.edition = PATCH_SURVEY_FOOT; /* metres do not depend on it */
    return write_record(&job);
}
