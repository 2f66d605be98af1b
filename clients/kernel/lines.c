// The lines of a script.
#include "lines.h"

#include <errno.h>
#include <stdlib.h>
#include <string.h>

static bool read_number(const char *word, uint64_t *number)
{
    char *end;

    if (*word < '0' || *word > '9')
        return false;
    errno = 0;
    *number = strtoull(word, &end, 10);
    return *end == '\0' && errno == 0;
}

// Cuts the text before its first ` -> `, and returns what follows.
static const char *cut_expected(char *text)
{
    char *arrow = strstr(text, " -> ");

    if (!arrow)
        return "";
    *arrow = '\0';
    return arrow + 4;
}

static bool read_fields(struct line *line, char *rest)
{
    char *word;

    while ((word = strtok_r(NULL, " ", &rest)) != NULL) {
        if (line->count == MOST_FIELDS || !read_number(word, &line->fields[line->count]))
            return false;
        line->count++;
    }
    return true;
}

static bool is_label(const char *word)
{
    return word && word[0] >= 'a' && word[0] <= 'z' && word[1] == '\0';
}

// `open L KIND ..`, `close L`, or `L WORD ..`: the words before the fields
static enum line_kind read_words(struct line *line, const char *first, char **rest)
{
    bool opens = strcmp(first, "open") == 0 || strcmp(first, "open2") == 0;
    bool closes = strcmp(first, "close") == 0;
    const char *label = opens || closes ? strtok_r(NULL, " ", rest) : first;

    if (strcmp(first, "limits") == 0)
        return LINE_LIMITS;
    if (!is_label(label))
        return LINE_MALFORMED;
    line->label = label[0];
    line->universal = strcmp(first, "open") == 0;
    if (closes)
        return LINE_CLOSING;
    line->word = strtok_r(NULL, " ", rest);
    if (!line->word)
        return LINE_MALFORMED;
    return opens ? LINE_OPENING : LINE_CALL;
}

void read_line(struct line *line, char *text)
{
    char *rest = NULL;
    const char *first;

    memset(line, 0, sizeof(*line));
    line->expected = "";
    if (text[0] == '#')
        return;
    line->expected = cut_expected(text);
    first = strtok_r(text, " ", &rest);
    if (!first)
        return;
    line->kind = read_words(line, first, &rest);
    if (!read_fields(line, rest))
        line->kind = LINE_MALFORMED;
}

uint64_t expected_number(const struct line *line, const char *word, unsigned place)
{
    size_t length = strlen(word);
    const char *text = line->expected;
    unsigned i;

    if (strncmp(text, word, length) != 0 || text[length] != ' ')
        return 0;
    text += length;
    for (i = 0; i < place && text; i++)
        text = strchr(text + 1, ' ');
    return text ? strtoull(text + 1, NULL, 10) : 0;
}
