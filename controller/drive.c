/*
 * The driver: goes through the recorded list and prints a line a group, as crates/replay does, then makes the calls with larger
 * inputs. The same source runs on the board and on the host.
 */
#include <string.h>

#include "driver.h"
#include "machine.h"
#include "room.h"

void say(const char *text)
{
    print(text, strlen(text));
}

void say_number(uint32_t n)
{
    char digits[10], *at = digits + sizeof digits;
    do
        *--at = (char)('0' + n % 10);
    while ((n /= 10) != 0);
    print(at, (size_t)(digits + sizeof digits - at));
}

/* ---- the group that is open */

static struct {
    bool open, records, no_call;
    uint32_t count, first; /* its cases, and the number of the first that differs, 0 where there is none */
} group;

static bool some_differ;

/* Ends a group's line. */
static void end_group(void)
{
    if (!group.open)
        return;
    say(" ");
    say_number(group.count);
    if (group.no_call) {
        say(" left out: no call of the C interface\n");
        return;
    }
    say(group.first == 0 ? " same" : " differs at ");
    if (group.first != 0)
        say_number(group.first);
    say(group.records ? records_by : "");
    say("\n");
    some_differ = some_differ || group.first != 0;
}

static void begin_group(const uint8_t *name, size_t len)
{
    end_group();
    print(name, len);
    memset(&group, 0, sizeof group);
    group.open = true;
}

/* ---- the lines */

static uint8_t list[LIST_ROOM];
static const uint8_t *tables; /* the line of the tables, for the calls on pictures */
static size_t tables_len;

const uint8_t *case_line;
size_t case_len;

static bool has_tables(uint8_t letter)
{
    return letter == 'c' || letter == 'q' || letter == 'x';
}

static void replay_line(const uint8_t *line, size_t len)
{
    clear_room();
    if (has_tables(line[0]))
        read_tokens(tables, tables_len);
    read_tokens(line, len);
    case_line = line;
    case_len = len;
    Verdict verdict = replay(line[0]);
    group.count++;
    group.no_call = group.no_call || verdict == NO_CALL;
    group.records = group.records || line[0] == 'N' || line[0] == 'M' || line[0] == 'B';
    if (verdict == DIFFERS && group.first == 0)
        group.first = group.count;
}

static void take_line(const uint8_t *line, size_t len)
{
    if (len == 0 || line[0] == '#')
        return;
    if (line[0] == 'g') {
        begin_group(line + 2, len - 2);
    } else if (line[0] == 'k') {
        tables = line;
        tables_len = len;
    } else {
        replay_line(line, len);
    }
}

static void go_through(size_t len)
{
    for (size_t at = 0, end; at < len; at = end + 1) {
        for (end = at; end < len && list[end] != '\n';)
            end++;
        take_line(list + at, end - at);
    }
    end_group();
}

int drive(void)
{
    size_t len = read_list(list);
    go_through(len);
    if (len == 0 || some_differ) /* the rest would tell no more */
        return 1;
    return call_larger() ? 0 : 1;
}
