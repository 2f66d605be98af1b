/* The lines of a script, and the answers that they expect (docs/SCRIPTS.md). */
#ifndef DRM_SCRIPT_LINES_H
#define DRM_SCRIPT_LINES_H

#include <stdbool.h>
#include <stdint.h>

#define MOST_FIELDS 40
#define MOST_TEXT 1200

enum line_kind { LINE_EMPTY, LINE_LIMITS, LINE_OPENING, LINE_CLOSING, LINE_CALL, LINE_MALFORMED };

struct line {
    enum line_kind kind;
    char label;
    /* of a call, or the kind of an opening */
    const char *word;
    /* an opening by `open`, not by `open2` */
    bool universal;
    unsigned count;
    uint64_t fields[MOST_FIELDS];
    /* the answer that the line expects, or an empty text */
    const char *expected;
};

/* Reads a line. The text is changed, and the line refers to it. */
void read_line(struct line *line, char *text);

/* Returns the number at this place of the expected answer if that begins with `word`, and 0
 * otherwise. */
uint64_t expected_number(const struct line *line, const char *word, unsigned place);

#endif
