/* A text, and what can be asked about it. */
#include "export.h"

static const char TEXT[] =
    "A module is the unit of deployment, loading, and compilation. It collects definitions for types, functions, "
    "tables, memories, tags, and globals. In addition, it can declare imports and exports and provide "
    "initialization in the form of data and element segments, or a start function. There are 13 sections, of "
    "which 0 is custom; pages have 65536 bytes, and a number of 32 bits takes at most 5 bytes.\n";

static int is_letter(char one)
{
    return (one | 32) >= 'a' && (one | 32) <= 'z';
}

static int is_digit(char one)
{
    return one >= '0' && one <= '9';
}

EXPORT(length)
int length(void)
{
    return sizeof TEXT - 1;
}

/* How many words there are, which spaces or the end of a line divide. */
EXPORT(words)
int words(void)
{
    int count = 0, within = 0;
    for (const char *at = TEXT; *at; at++) {
        int now = *at != ' ' && *at != '\n';
        count += now && !within;
        within = now;
    }
    return count;
}

/* How often a character stands there, by its number; of a letter both cases count. */
EXPORT(count)
int count(int wanted)
{
    int found = 0;
    for (const char *at = TEXT; *at; at++)
        found += *at == wanted || (is_letter(wanted) && (*at | 32) == (wanted | 32));
    return found;
}

/* How many letters the longest word of letters has. */
EXPORT(longest)
int longest(void)
{
    int most = 0, now = 0;
    for (const char *at = TEXT; *at; at++) {
        now = is_letter(*at) ? now + 1 : 0;
        most = now > most ? now : most;
    }
    return most;
}

/* The sum of the numbers that stand in it. */
EXPORT(sum)
int sum(void)
{
    int total = 0, number = 0;
    for (const char *at = TEXT; *at; at++) {
        number = is_digit(*at) ? number * 10 + *at - '0' : 0;
        if (!is_digit(at[1]))
            total += number;
    }
    return total;
}
