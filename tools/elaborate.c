/*
 * Makes textual LRAT of a proof in DRAT, which is what most solvers write.
 *
 *     cc -O2 -o elaborate elaborate.c
 *     ./elaborate FORMULA.cnf PROOF.drat PROOF.lrat
 *
 * The proof is text or the binary form of DRAT. It is read forward once, until unit propagation finds a conflict, and
 * then checked backward (Heule, Hunt and Wetzler 2013): of the clauses that it adds, only those that the conflict needs
 * are shown and written, each with the hints by which unit propagation shows it. Clauses that are already needed are
 * tried first, so that few are. A literal that is true for good gets a line of its own. A deletion is followed, except
 * of a clause that makes a literal true for good, as other checkers do it.
 *
 * Each needed clause has to follow by unit propagation; one that needs more (RAT) is named and refused, and so is a
 * proof without a conflict. The status is 0 where the proof is written, 1 where there is none to be had, and 2 where
 * the words are wrong. Nothing here is trusted: what judges the written proof is a checker of LRAT.
 */
#include <errno.h>
#include <limits.h>
#include <stdarg.h>
#include <stdint.h>
#include <stdio.h>
#include <stdlib.h>
#include <string.h>

enum { NONE = -1 };

/* ---- faults and memory */

static void refuse(const char *file, const char *format, ...)
{
    va_list words;
    va_start(words, format);
    fprintf(stderr, "%s: ", file);
    vfprintf(stderr, format, words);
    fputc('\n', stderr);
    va_end(words);
    exit(1);
}

static void *resized(void *block, size_t count, size_t size)
{
    void *given = size && count > SIZE_MAX / size ? NULL : realloc(block, count && size ? count * size : 1);
    if (!given)
        refuse("elaborate", "out of memory");
    return given;
}

static void *zeros(size_t count, size_t size)
{
    void *given = calloc(count ? count : 1, size);
    if (!given)
        refuse("elaborate", "out of memory");
    return given;
}

struct list {
    int *items;
    size_t length, room;
};

static void push(struct list *list, int item)
{
    if (list->length == list->room) {
        list->room = list->room ? 2 * list->room : 16;
        list->items = resized(list->items, list->room, sizeof *list->items);
    }
    list->items[list->length++] = item;
}

/* ---- literals: twice the variable, and one more where it is negated */

static int literal_of(int number) { return number > 0 ? 2 * number : 1 - 2 * number; }

static int negation(int literal) { return literal ^ 1; }

static int variable_of(int literal) { return literal >> 1; }

static int number_of(int literal) { return literal & 1 ? -variable_of(literal) : variable_of(literal); }

/*
 * ---- clauses: those of the formula, then those that the proof adds
 *
 * A clause is named by where its literals begin among the numbers of all clauses. The first two are watched. Before
 * them stand the clause before it in its chain of the index, how many literals were true for good before it was added,
 * how many clauses there were, and its size with its state.
 */
enum { CHAINED = -4, BEFORE = -3, NUMBER = -2, SIZE = -1, HEADER = 4 };
enum { STANDS = 1, NEEDED = 2, STATES = 4 };

struct watch {
    int clause;
    int blocker;           /* a literal of the clause: where it is true nothing is to do */
};

struct watches {
    struct watch *items;
    size_t length, room;
};

/* Watches of needed clauses, which are visited first, and of the others. */
enum { CORE, REST, KINDS };

static int variables, formula_size, count;
static struct list all;
static int *chains, chain_count;

/* The steps of the proof: each as its clause, whether that is deleted, and its line, or in a binary proof its number. */
static struct list steps;
enum { STEP = 3 };

static int *literals_of(int clause) { return all.items + clause; }

static int size_of(int clause) { return all.items[clause + SIZE] / STATES; }

static int has(int clause, int state) { return all.items[clause + SIZE] & state; }

static unsigned hash_of(const int *items, int size)
{
    unsigned sum = 0, product = 1, either = 0;
    for (int i = 0; i < size; i++) {
        unsigned item = (unsigned)items[i];
        sum += item;
        product *= 2 * item + 1;
        either ^= item;
    }
    return (1023 * sum + product) ^ (31 * either);
}

static void chain(int clause)
{
    unsigned at = hash_of(literals_of(clause), size_of(clause)) % (unsigned)chain_count;
    all.items[clause + CHAINED] = chains[at];
    chains[at] = clause;
}

/* Doubles the index where its chains grow long. */
static void grow_index(void)
{
    if (count < chain_count)
        return;
    chain_count = chain_count ? 2 * chain_count : 1 << 16;
    chains = resized(chains, (size_t)chain_count, sizeof *chains);
    for (int at = 0; at < chain_count; at++)
        chains[at] = NONE;
    for (int clause = HEADER, left = count; left > 0; left--, clause += size_of(clause) + HEADER)
        chain(clause);
}

/* Begins a clause at the end of all: the literals follow. */
static int begun(void)
{
    for (int at = 0; at < HEADER; at++)
        push(&all, 0);
    if (all.length > INT_MAX / 2)
        refuse("elaborate", "the clauses have too many literals");
    return (int)all.length;
}

/* Drops the clause at the end. */
static void drop(int clause)
{
    all.length = (size_t)clause - HEADER;
}

/* Keeps the clause at the end. */
static void keep(int clause)
{
    grow_index();
    all.items[clause + SIZE] = ((int)all.length - clause) * STATES;
    all.items[clause + NUMBER] = count++;
    chain(clause);
}

static void keep_step(int clause, int is_deletion, int place)
{
    push(&steps, clause);
    push(&steps, is_deletion);
    push(&steps, place);
}

/* ---- what is true */

static signed char *value;             /* by literal: 1 where it is true, -1 where it is false */
static int *reason, *position;         /* by variable: the clause that made it true, and where it is on the trail */
static int *trail, trail_length, fixed_length;
static int processed[KINDS];
static struct watches *watches[KINDS]; /* by literal */

static void assign(int literal, int clause)
{
    value[literal] = 1;
    value[negation(literal)] = -1;
    reason[variable_of(literal)] = clause;
    position[variable_of(literal)] = trail_length;
    trail[trail_length++] = literal;
}

static void undo(int length)
{
    while (trail_length > length) {
        int literal = trail[--trail_length];
        value[literal] = value[negation(literal)] = 0;
    }
    processed[CORE] = processed[REST] = length;
}

static void watch(int kind, int literal, int clause, int blocker)
{
    struct watches *list = &watches[kind][literal];
    if (list->length == list->room) {
        list->room = list->room ? 2 * list->room : 4;
        list->items = resized(list->items, list->room, sizeof *list->items);
    }
    list->items[list->length++] = (struct watch){clause, blocker};
}

static void attach(int clause)
{
    const int *items = literals_of(clause);
    int kind = has(clause, NEEDED) ? CORE : REST;
    all.items[clause + SIZE] |= STANDS;
    if (size_of(clause) > 1) {
        watch(kind, items[0], clause, items[1]);
        watch(kind, items[1], clause, items[0]);
    }
}

/* Moves a watch of a clause from a false literal to one that isn't false; says whether there is one. */
static int watch_another(int clause, int blocker)
{
    int *items = literals_of(clause), size = size_of(clause);
    for (int at = 2; at < size; at++) {
        int other = items[at];
        if (value[other] >= 0) {
            items[at] = items[1];
            items[1] = other;
            watch(has(clause, NEEDED) ? CORE : REST, other, clause, blocker);
            return 1;
        }
    }
    return 0;
}

/* What a clause comes to, one of whose two watched literals has become false. */
enum outcome { GONE, KEPT, CONFLICT };

static enum outcome visit_clause(struct watch *seen, int false_literal)
{
    int clause = seen->clause;
    if (!has(clause, STANDS))
        return GONE;
    int *items = literals_of(clause);
    if (items[0] == false_literal) {
        items[0] = items[1];
        items[1] = false_literal;
    }
    int first = items[0];
    seen->blocker = first;
    if (value[first] > 0)
        return KEPT;
    if (watch_another(clause, first))
        return GONE;
    if (value[first] < 0)
        return CONFLICT;
    assign(first, clause);
    return KEPT;
}

/* Visits the clauses of one kind that watch a false literal: a clause that is false, or NONE. */
static int visit(int kind, int false_literal)
{
    struct watches *list = &watches[kind][false_literal];
    size_t kept = 0, at = 0;
    int conflict = NONE;
    while (at < list->length && conflict == NONE) {
        struct watch seen = list->items[at++];
        if (value[seen.blocker] > 0) {
            list->items[kept++] = seen;
            continue;
        }
        enum outcome outcome = visit_clause(&seen, false_literal);
        if (outcome == GONE)
            continue;
        if (kind == REST && has(seen.clause, NEEDED))
            watch(CORE, false_literal, seen.clause, seen.blocker);
        else
            list->items[kept++] = seen;
        if (outcome == CONFLICT)
            conflict = seen.clause;
    }
    while (at < list->length)
        list->items[kept++] = list->items[at++];
    list->length = kept;
    return conflict;
}

/* Makes true all that follows, by needed clauses first: a clause that is false, or NONE. */
static int propagate(void)
{
    int conflict = NONE;
    while (conflict == NONE) {
        int kind = processed[CORE] < trail_length ? CORE : REST;
        if (processed[kind] == trail_length)
            break;
        conflict = visit(kind, negation(trail[processed[kind]++]));
    }
    return conflict;
}

/* ---- forward: up to a conflict */

/* Lets a clause stand, with all that follows for good: a clause that is false, or NONE. */
static int add(int clause)
{
    int *items = literals_of(clause), size = size_of(clause), free = 0;
    all.items[clause + BEFORE] = trail_length;
    for (int at = 0; at < size && free < 2; at++)
        if (value[items[at]] >= 0) {
            int literal = items[at];
            items[at] = items[free];
            items[free++] = literal;
        }
    if (free == 0) {
        all.items[clause + SIZE] |= STANDS;
        return clause;
    }
    attach(clause);
    if (free == 2 || value[items[0]] > 0)
        return NONE;
    assign(items[0], clause);
    return propagate();
}

static int is_reason(int clause)
{
    const int *items = literals_of(clause);
    for (int at = 0; at < size_of(clause) && at < 2; at++)
        if (value[items[at]] > 0 && reason[variable_of(items[at])] == clause)
            return 1;
    return 0;
}

/* A file that is read, from where it was left, and whether the clause that comes next is deleted. */
struct source {
    const char *name, *unit; /* the unit is what its places count: lines, or in a binary proof steps */
    const unsigned char *next, *end;
    int place, is_binary, is_deletion;
};

static void skip_line(struct source *source)
{
    while (source->next < source->end && *source->next != '\n')
        source->next++;
}

/* Whether a line says nothing: a comment, or the head that some solvers give their proofs. */
static int is_remark(const struct source *source)
{
    return source->next < source->end && (*source->next == 'c' || *source->next == '%');
}

static int is_space(int byte)
{
    return byte == ' ' || byte == '\t' || byte == '\r' || byte == '\n';
}

static void skip_space(struct source *source)
{
    for (; source->next < source->end && is_space(*source->next); source->next++)
        source->place += *source->next == '\n';
}

static int text_number(struct source *source)
{
    skip_space(source);
    int sign = 1;
    long number = 0;
    if (source->next < source->end && *source->next == '-') {
        sign = -1;
        source->next++;
    }
    if (source->next == source->end || *source->next < '0' || *source->next > '9')
        refuse(source->name, "line %d isn't a clause that ends with 0", source->place);
    for (; source->next < source->end && *source->next >= '0' && *source->next <= '9'; source->next++) {
        number = 10 * number + (*source->next - '0');
        if (number > INT_MAX / 2 - 1)
            refuse(source->name, "line %d has a number that is too large", source->place);
    }
    if (source->next < source->end && !is_space(*source->next))
        refuse(source->name, "line %d isn't text: byte %d", source->place, *source->next);
    return sign * (int)number;
}

static int binary_number(struct source *source)
{
    unsigned long number = 0;
    for (int shift = 0; source->next < source->end && shift < 35; shift += 7) {
        unsigned byte = *source->next++;
        number |= (unsigned long)(byte & 127) << shift;
        if (!(byte & 128))
            return number & 1 ? -(int)(number >> 1) : (int)(number >> 1);
    }
    refuse(source->name, "step %d isn't a clause that ends with 0", source->place);
    return 0;
}

static int *stamps, stamp; /* by literal: the last clause that had it */

/* Reads the literals of a clause, each once, to the end of all literals; says whether it holds anyhow. */
static int read_literals(struct source *source)
{
    int always = 0, number;
    stamp++;
    while ((number = source->is_binary ? binary_number(source) : text_number(source)) != 0) {
        if (abs(number) > variables)
            refuse(source->name, "%s %d has the variable %d, which the formula hasn't", source->unit, source->place,
                   abs(number));
        int literal = literal_of(number);
        always |= stamps[negation(literal)] == stamp;
        if (stamps[literal] != stamp)
            push(&all, literal);
        stamps[literal] = stamp;
    }
    return always;
}

/* Goes to the next clause of a file: whether there is one. */
static int next_clause(struct source *source)
{
    source->is_deletion = 0;
    if (source->is_binary) {
        if (source->next == source->end)
            return 0;
        source->place++;
        int head = *source->next++;
        if (head != 'a' && head != 'd')
            refuse(source->name, "step %d begins with byte %d, neither a nor d", source->place, head);
        source->is_deletion = head == 'd';
        return 1;
    }
    for (skip_space(source); is_remark(source); skip_space(source))
        skip_line(source);
    if (source->next < source->end && *source->next == 'd') {
        source->is_deletion = 1;
        source->next++;
    }
    return source->next < source->end;
}

static struct source opened(const char *name)
{
    FILE *file = fopen(name, "rb");
    unsigned char *bytes = NULL;
    size_t length = 0, room = 0, got;
    if (!file)
        refuse(name, "%s", strerror(errno));
    do {
        room = room ? 2 * room : 1 << 20;
        bytes = resized(bytes, room, 1);
        got = fread(bytes + length, 1, room - length, file);
        length += got;
    } while (length == room);
    if (ferror(file))
        refuse(name, "it can't be read");
    fclose(file);
    return (struct source){.name = name, .unit = "line", .next = bytes, .end = bytes + length, .place = 1};
}

/* Whether a proof is in the binary form: it begins with `a` or `d`, and soon has a byte that no text has. */
static int looks_binary(const struct source *source)
{
    const unsigned char *next = source->next;
    int is_text = next == source->end || (*next != 'a' && *next != 'd');
    for (; !is_text && next < source->end && next < source->next + 64; next++)
        if (!*next || !strchr("-d0123456789 \t\r\nc", *next))
            return 1;
    return 0;
}

/* The clause with the same literals as the one just read that stands and isn't the reason of a literal, or NONE. */
static int found(int read)
{
    int size = (int)all.length - read;
    if (!chain_count)
        return NONE;
    int clause = chains[hash_of(literals_of(read), size) % (unsigned)chain_count];
    for (; clause != NONE; clause = all.items[clause + CHAINED]) {
        const int *items = literals_of(clause);
        int same = size_of(clause) == size && has(clause, STANDS);
        for (int at = 0; same && at < size; at++)
            same = stamps[items[at]] == stamp;
        if (same && !is_reason(clause))
            return clause;
    }
    return NONE;
}

static void set_up(void)
{
    size_t by_variable = (size_t)variables + 1, by_literal = 2 * by_variable;
    value = zeros(by_literal, sizeof *value);
    stamps = zeros(by_literal, sizeof *stamps);
    reason = zeros(by_variable, sizeof *reason);
    position = zeros(by_variable, sizeof *position);
    trail = zeros(by_variable, sizeof *trail);
    for (int kind = 0; kind < KINDS; kind++)
        watches[kind] = zeros(by_literal, sizeof *watches[kind]);
}

/* Reads the formula: a clause that is false by propagation alone, or NONE. */
static int read_formula(const char *name)
{
    struct source source = opened(name);
    int conflict = NONE, at = 0;
    for (skip_space(&source); is_remark(&source); skip_space(&source))
        skip_line(&source);
    char head[64] = "";
    memcpy(head, source.next, source.end - source.next < 63 ? (size_t)(source.end - source.next) : 63);
    if (sscanf(head, "p cnf %d %d%n", &variables, &formula_size, &at) != 2 || variables < 0 || variables > INT_MAX / 4)
        refuse(name, "it doesn't begin with p cnf, the number of variables and that of clauses");
    source.next += at;
    set_up();
    while (next_clause(&source)) {
        int clause = begun(), always = read_literals(&source);
        keep(clause);
        if (conflict == NONE && !always)
            conflict = add(clause);
    }
    if (count != formula_size)
        refuse(name, "it has %d clauses where its head says %d", count, formula_size);
    return conflict;
}

/* Reads the proof, and lets its clauses stand, up to a clause that is false, which it gives. */
static int read_proof(struct source *source)
{
    int conflict = NONE;
    if ((source->is_binary = looks_binary(source))) {
        source->unit = "step";
        source->place = 0;
    }
    while (conflict == NONE && next_clause(source)) {
        int place = source->place;
        int clause = begun(), always = read_literals(source);
        if (source->is_deletion) {
            int gone = found(clause);
            drop(clause);
            if (gone != NONE) {
                all.items[gone + SIZE] &= ~STANDS;
                keep_step(gone, 1, place);
            }
        } else if (always) {
            drop(clause);
        } else {
            keep(clause);
            keep_step(clause, 0, place);
            conflict = add(clause);
        }
    }
    if (conflict == NONE)
        refuse(source->name, "it ends without the empty clause");
    if (size_of(conflict) == 0)
        refuse(source->name, "%s %d, the empty clause, doesn't follow by unit propagation", source->unit,
               steps.items[steps.length - 1]);
    return conflict;
}

/* ---- backward: what the conflict needs */

/*
 * The lines from the last to the first, each as its hints from the last to the first, how many, its literals, how
 * many, and its name. A clause is named by its number, and the line of a literal that is true for good by the number
 * of clauses and its variable.
 */
static struct list lines;
static unsigned char *is_unit_needed; /* by variable */
static int *met, meeting;             /* by variable: the last line that met it */

static void end_line(const int *items, int size, size_t hints, int name)
{
    push(&lines, (int)(lines.length - hints));
    for (int at = 0; at < size; at++)
        push(&lines, items[at]);
    push(&lines, size);
    push(&lines, name);
}

static void need_clause(int clause)
{
    all.items[clause + SIZE] |= NEEDED;
    push(&lines, all.items[clause + NUMBER]);
}

/* A hint that makes a literal true that is true for good. */
static void need_unit(int variable)
{
    if (size_of(reason[variable]) == 1) {
        need_clause(reason[variable]);
    } else {
        is_unit_needed[variable] = 1;
        push(&lines, count + variable);
    }
}

static struct list units; /* the variables that a line needs and that have their value for good */

/* Meets the variables of a clause for the line: those that are true for good are listed. */
static void meet(int clause)
{
    const int *items = literals_of(clause);
    for (int at = 0; at < size_of(clause); at++) {
        int variable = variable_of(items[at]);
        if (met[variable] != meeting && position[variable] < fixed_length)
            push(&units, variable);
        met[variable] = meeting;
    }
}

/* Writes the hints that lead to a clause that is false. */
static void hint(int conflict)
{
    units.length = 0;
    need_clause(conflict);
    meet(conflict);
    for (int at = trail_length - 1; at >= fixed_length; at--) {
        int variable = variable_of(trail[at]);
        if (met[variable] == meeting && reason[variable] != NONE) {
            need_clause(reason[variable]);
            meet(reason[variable]);
        }
    }
    for (size_t at = 0; at < units.length; at++)
        need_unit(units.items[at]);
}

/* Makes the literals of a clause false: NONE, or where one of them is true for good its variable. */
static int assume_false(int clause)
{
    const int *items = literals_of(clause);
    for (int at = 0; at < size_of(clause); at++) {
        if (value[items[at]] > 0)
            return variable_of(items[at]);
        if (value[items[at]] < 0)
            met[variable_of(items[at])] = meeting;
        else
            assign(negation(items[at]), NONE);
    }
    return NONE;
}

/* Writes the line of a clause that no longer stands: whether unit propagation shows it. */
static int show(int clause)
{
    size_t hints = lines.length;
    fixed_length = trail_length;
    meeting++;
    int true_for_good = assume_false(clause);
    int conflict = true_for_good == NONE ? propagate() : NONE;
    if (conflict != NONE)
        hint(conflict);
    else if (true_for_good != NONE)
        need_unit(true_for_good);
    undo(fixed_length);
    end_line(literals_of(clause), size_of(clause), hints, all.items[clause + NUMBER]);
    return lines.length > hints + 3 + (size_t)size_of(clause);
}

/* Takes back what has been true for good since there were so many such literals, with the lines of those needed. */
static void take_back(int length)
{
    for (int at = trail_length - 1; at >= length; at--) {
        int literal = trail[at], variable = variable_of(literal), clause = reason[variable];
        if (!is_unit_needed[variable])
            continue;
        size_t hints = lines.length;
        need_clause(clause);
        for (int other = 0; other < size_of(clause); other++)
            if (variable_of(literals_of(clause)[other]) != variable)
                need_unit(variable_of(literals_of(clause)[other]));
        end_line(&literal, 1, hints, count + variable);
    }
    undo(length);
}

/* Drops the watches of clauses that don't stand. */
static void sweep(void)
{
    for (int literal = 2; literal < 2 * variables + 2; literal++) {
        struct watches *list = &watches[REST][literal];
        size_t kept = 0;
        for (size_t at = 0; at < list->length; at++)
            if (has(list->items[at].clause, STANDS))
                list->items[kept++] = list->items[at];
        list->length = kept;
    }
}

/* Writes the lines that lead to a clause that is false, going back through the proof. */
static void check_back(const struct source *proof, int conflict)
{
    is_unit_needed = zeros((size_t)variables + 1, sizeof *is_unit_needed);
    met = zeros((size_t)variables + 1, sizeof *met);
    fixed_length = trail_length;
    meeting++;
    hint(conflict);
    end_line(NULL, 0, 0, count);
    sweep();
    for (size_t left = steps.length; left > 0; left -= STEP) {
        const int *step = steps.items + left - STEP;
        int clause = step[0];
        if (step[1]) {
            attach(clause);
            continue;
        }
        take_back(all.items[clause + BEFORE]);
        all.items[clause + SIZE] &= ~STANDS;
        if (has(clause, NEEDED) && !show(clause))
            refuse(proof->name, "%s %d doesn't follow by unit propagation (RAT is refused)", proof->unit, step[2]);
    }
    take_back(0);
}

/* ---- the written proof */

static char buffer[1 << 16];
static size_t buffered;

static void write_number(FILE *file, long number, char end)
{
    char digits[24];
    int length = 0;
    if (buffered + 32 > sizeof buffer) {
        fwrite(buffer, 1, buffered, file);
        buffered = 0;
    }
    if (number < 0) {
        buffer[buffered++] = '-';
        number = -number;
    }
    do
        digits[length++] = (char)('0' + number % 10);
    while (number /= 10);
    while (length)
        buffer[buffered++] = digits[--length];
    buffer[buffered++] = end;
}

/* Writes the lines in order, numbered from the formula's clauses on. */
static void write_lines(const char *name)
{
    FILE *file = fopen(name, "wb");
    long *numbers = zeros((size_t)count + (size_t)variables + 1, sizeof *numbers), next = formula_size;
    if (!file)
        refuse(name, "%s", strerror(errno));
    for (int clause = 0; clause < formula_size; clause++)
        numbers[clause] = clause + 1;
    for (size_t at = lines.length; at > 0;) {
        int line = lines.items[--at], size = lines.items[--at];
        numbers[line] = ++next;
        write_number(file, next, ' ');
        for (; size > 0; size--)
            write_number(file, number_of(lines.items[--at]), ' ');
        write_number(file, 0, ' ');
        for (int hints = lines.items[--at]; hints > 0; hints--)
            write_number(file, numbers[lines.items[--at]], ' ');
        write_number(file, 0, '\n');
    }
    fwrite(buffer, 1, buffered, file);
    if (ferror(file) | fclose(file))
        refuse(name, "it can't be written");
}

int main(int argc, char **argv)
{
    if (argc != 4) {
        fputs("usage: elaborate FORMULA.cnf PROOF.drat PROOF.lrat\n", stderr);
        return 2;
    }
    int conflict = read_formula(argv[1]);
    struct source proof = opened(argv[2]);
    if (conflict == NONE)
        conflict = read_proof(&proof);
    check_back(&proof, conflict);
    write_lines(argv[3]);
    return 0;
}
