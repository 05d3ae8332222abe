/*
 * peer: an independent reading of 01-scope.md (bench), REPLAY.md (replay) and
 * the page on texts (19 and 20 of replay, to_text, to_bytes).
 *
 * `peer bench`    reads one bench input and prints bench's report.
 * `peer replay`   reads a stream of calls and prints their answers.
 * `peer to_text`  reads a sheet's bytes and prints its text.
 * `peer to_bytes` reads a text and prints the sheet's bytes.
 *
 * A sheet is calm where no variable is named by two operators.
 */
#include <stdbool.h>
#include <stdint.h>
#include <stdio.h>
#include <string.h>

/* ---- the document's numbers ---- */

enum {
    FIELDS = 4,                     /* fields of an item */
    ROOM = 64,                      /* items a queue holds */
    PART = FIELDS * ROOM,           /* store numbers of one queue */
    QUEUES = 24,
    STORE = PART * QUEUES,
    VARS = 16,
    OPS = 16,
    INPUTS = 4,
    MAX_STEPS = 4,
    MIN_WAYS = 2,
    MAX_WAYS = 4,
    NO_VAR = 255,
    NO_READY = 32,                  /* "lowest" of an empty ready set */

    RECORD_HEAD = 4,                /* body length and kind */
    HEAD_BODY = 4,
    LINE_FIXED = 2,
    STEP_BYTES = 12,
    LATEST_BODY = 3,
    DOUBLE_BODY = 3,
    WAYS_FIXED = 2,
    FEED_BODY = 1 + 4 * FIELDS,
    FIRE_BODY = 1,
    MAX_SHEET = RECORD_HEAD + HEAD_BODY
        + OPS * (RECORD_HEAD + LINE_FIXED + MAX_STEPS * STEP_BYTES),

    /* a line of four Keeps is the longest operator */
    STEP_TEXT = sizeof "Keep[3,-2147483648,-2147483648] | ",
    MAX_TEXT = sizeof "output; input; vars 16;"
        + (QUEUES + INPUTS) * sizeof ", q23"
        + OPS * (sizeof " (q23) <- (q23);" + MAX_STEPS * STEP_TEXT),

    INPUT_MAX = 32768,              /* of a program */
    BODY_MAX = 40000,
    LENT_MAX = 4096,
    LENT_FILL = 170,
    CALL_HEAD = 5
};

enum kind {
    K_HEAD = 1, K_LINE, K_LATEST, K_DOUBLE, K_DEAL, K_GATHER,
    K_FEED = 16, K_FIRE = 17
};

enum refusal {
    OK = 0,
    R_SHAPE = 1, R_KIND, R_HEAD, R_QUEUE, R_TWICE, R_VAR, R_STEP,
    R_STATE, R_NO_END, R_EMPTY, R_WAITS, R_ROOM,
    R_NOT_CALM, R_NO_OP, R_NO_LINE, R_LIMIT, R_FORBIDDEN, R_LENT, R_TEXT
};

/* ---- the one table of steps ---- */

enum function { F_KEEP = 1, F_ADD, F_COPY, F_COUNT, F_STAMP, F_END };

enum place { P_VAR = 1, P_P = 2, P_R = 4, P_LOW = 8, P_HIGH = 16 };

typedef struct {
    const char *name;
    unsigned takes;                 /* places used, enum place */
    unsigned reads;                 /* P_P where field p is read */
    unsigned writes;                /* P_P or P_R: the field written */
    bool may_drop;
} StepRule;

static const StepRule STEP_RULES[F_END] = {
    [F_KEEP]  = { "Keep",  P_P | P_LOW | P_HIGH, P_P, 0,   true  },
    [F_ADD]   = { "Add",   P_P | P_LOW,          P_P, P_P, false },
    [F_COPY]  = { "Copy",  P_P | P_R,            P_P, P_R, false },
    [F_COUNT] = { "Count", P_VAR | P_P,          0,   P_P, false },
    [F_STAMP] = { "Stamp", P_VAR | P_P,          0,   P_P, false }
};

/* ---- sheet and state ---- */

typedef struct {
    uint8_t fn, var, p, r;
    int32_t low, high;
} Step;

typedef struct {
    uint8_t kind, var, field;       /* var: latest's, or the cursor */
    uint8_t ins, outs, steps;       /* how many of each */
    uint8_t in[MAX_WAYS], out[MAX_WAYS];
    Step step[MAX_STEPS];
} Op;

typedef struct {
    uint8_t inputs, queues, vars, ops;
    Op op[OPS];
} Sheet;

typedef struct {
    uint8_t count[QUEUES];
    int32_t var[VARS];
    int32_t store[STORE];
} State;

typedef struct {
    int32_t f[FIELDS];
} Item;

typedef struct {
    int number;                     /* OK or a refusal */
    unsigned at;                    /* record, or with R_TEXT the byte */
} Verdict;

static Verdict verdict(int number, unsigned at)
{
    Verdict v = { number, at };
    return v;
}

/* ---- little-endian numbers ---- */

static unsigned get16(const uint8_t *b)
{
    return (unsigned)b[0] | (unsigned)b[1] << 8;
}

static uint32_t get32(const uint8_t *b)
{
    return (uint32_t)b[0] | (uint32_t)b[1] << 8
        | (uint32_t)b[2] << 16 | (uint32_t)b[3] << 24;
}

static int32_t to_signed(uint32_t u)
{
    int32_t s;
    memcpy(&s, &u, sizeof s);
    return s;
}

static int32_t get_signed(const uint8_t *b)
{
    return to_signed(get32(b));
}

static int32_t wrapping_add(int32_t a, int32_t b)
{
    return to_signed((uint32_t)a + (uint32_t)b);
}

static uint8_t *put8(uint8_t *b, unsigned v)
{
    *b = (uint8_t)v;
    return b + 1;
}

static uint8_t *put16(uint8_t *b, unsigned v)
{
    return put8(put8(b, v & 255), v >> 8);
}

static uint8_t *put32(uint8_t *b, int32_t s)
{
    uint32_t u = (uint32_t)s;
    return put16(put16(b, u & 65535), u >> 16);
}

/* ---- records ---- */

typedef struct {
    const uint8_t *data;
    size_t length, at;
    unsigned number;                /* of the record that comes next */
} Reader;

typedef struct {
    unsigned kind, length, number;
    const uint8_t *body;
} Record;

static bool at_end(const Reader *rd)
{
    return rd->at == rd->length;
}

/* False where the record is cut short or missing. */
static bool next_record(Reader *rd, Record *rec)
{
    const uint8_t *b = rd->data + rd->at;
    size_t left = rd->length - rd->at;

    rec->number = rd->number++;
    if (left < RECORD_HEAD)
        return false;
    rec->length = get16(b);
    rec->kind = get16(b + 2);
    rec->body = b + RECORD_HEAD;
    if (left - RECORD_HEAD < rec->length)
        return false;
    rd->at += RECORD_HEAD + (size_t)rec->length;
    return true;
}

static bool ways_fit(unsigned n)
{
    return n >= MIN_WAYS && n <= MAX_WAYS;
}

static bool op_length_fits(unsigned kind, unsigned length)
{
    switch (kind) {
    case K_LINE:
        return length > LINE_FIXED && (length - LINE_FIXED) % STEP_BYTES == 0
            && (length - LINE_FIXED) / STEP_BYTES <= MAX_STEPS;
    case K_LATEST:
        return length == LATEST_BODY;
    case K_DOUBLE:
        return length == DOUBLE_BODY;
    default:
        return length > WAYS_FIXED && ways_fit(length - WAYS_FIXED);
    }
}

static Step decode_step(const uint8_t *b)
{
    Step s = { b[0], b[1], b[2], b[3], get_signed(b + 4), get_signed(b + 8) };
    return s;
}

static void decode_line(Op *op, const Record *rec)
{
    op->ins = op->outs = 1;
    op->in[0] = rec->body[0];
    op->out[0] = rec->body[1];
    op->steps = (uint8_t)((rec->length - LINE_FIXED) / STEP_BYTES);
    for (unsigned i = 0; i < op->steps; i++)
        op->step[i] = decode_step(rec->body + LINE_FIXED + i * STEP_BYTES);
}

/* The record's kind and length are right already. */
static Op decode_op(const Record *rec)
{
    const uint8_t *b = rec->body;
    Op op;

    memset(&op, 0, sizeof op);
    op.kind = (uint8_t)rec->kind;
    switch (rec->kind) {
    case K_LINE:
        decode_line(&op, rec);
        break;
    case K_LATEST:
        op.ins = 1;
        op.in[0] = b[0];
        op.var = b[1];
        op.field = b[2];
        break;
    case K_DOUBLE:
        op.ins = 1;
        op.outs = 2;
        op.in[0] = b[0];
        memcpy(op.out, b + 1, 2);
        break;
    case K_DEAL:
        op.ins = 1;
        op.outs = (uint8_t)(rec->length - WAYS_FIXED);
        op.var = b[0];
        op.in[0] = b[1];
        memcpy(op.out, b + WAYS_FIXED, op.outs);
        break;
    default:
        op.outs = 1;
        op.ins = (uint8_t)(rec->length - WAYS_FIXED);
        op.var = b[0];
        op.out[0] = b[1];
        memcpy(op.in, b + WAYS_FIXED, op.ins);
        break;
    }
    return op;
}

/* ---- which variables an operator names, and its cursor ---- */

typedef struct {
    uint32_t named, cursor;
} VarUse;

static const StepRule *step_rule(const Step *s)
{
    return s->fn >= F_KEEP && s->fn < F_END ? &STEP_RULES[s->fn] : NULL;
}

static bool has_cursor(const Op *op)
{
    return op->kind == K_DEAL || op->kind == K_GATHER;
}

static bool has_var(const Op *op)
{
    return op->kind == K_LATEST || has_cursor(op);
}

static unsigned ways(const Op *op)
{
    return op->kind == K_DEAL ? op->outs : op->ins;
}

/* For operators whose variables are below V. */
static VarUse var_use(const Op *op)
{
    VarUse use = { 0, 0 };

    for (unsigned i = 0; i < op->steps; i++) {
        const StepRule *rule = step_rule(&op->step[i]);
        if (rule == NULL || !(rule->takes & P_VAR))
            continue;
        use.named |= UINT32_C(1) << op->step[i].var;
    }
    if (has_var(op))
        use.named |= UINT32_C(1) << op->var;
    if (has_cursor(op))
        use.cursor = use.named;
    return use;
}

/* ---- the judge ---- */

typedef struct {
    uint32_t defined, used;         /* queues, by earlier records */
    uint32_t named, cursors;        /* variables, by earlier records */
} Seen;

static bool bit(uint32_t set, unsigned i)
{
    return set >> i & 1;
}

/* Adds each of the queues to the set; false if one was there already. */
static bool add_queues(uint32_t *set, const uint8_t *queue, unsigned n)
{
    bool fresh = true;

    for (unsigned i = 0; i < n; i++) {
        fresh = fresh && !bit(*set, queue[i]);
        *set |= UINT32_C(1) << queue[i];
    }
    return fresh;
}

static bool queues_known(const Sheet *sh, const Op *op, const Seen *seen)
{
    for (unsigned i = 0; i < op->ins; i++)
        if (op->in[i] >= sh->queues || !bit(seen->defined, op->in[i]))
            return false;
    for (unsigned i = 0; i < op->outs; i++)
        if (op->out[i] >= sh->queues)
            return false;
    return true;
}

static bool step_var_good(const Sheet *sh, const Step *s, const Seen *seen)
{
    const StepRule *rule = step_rule(s);

    if (rule == NULL)
        return true;                /* judged by its function alone */
    if (!(rule->takes & P_VAR))
        return s->var == NO_VAR;
    return s->var < sh->vars && !bit(seen->cursors, s->var);
}

static bool vars_good(const Sheet *sh, const Op *op, const Seen *seen)
{
    for (unsigned i = 0; i < op->steps; i++)
        if (!step_var_good(sh, &op->step[i], seen))
            return false;
    if (!has_var(op))
        return true;
    if (op->var >= sh->vars)
        return false;
    return !bit(has_cursor(op) ? seen->named : seen->cursors, op->var);
}

static bool field_good(const StepRule *rule, unsigned place, unsigned value)
{
    return value < (rule->takes & place ? FIELDS : 1);
}

static bool step_good(const Step *s)
{
    const StepRule *rule = step_rule(s);

    return rule != NULL
        && field_good(rule, P_P, s->p) && field_good(rule, P_R, s->r)
        && (rule->takes & P_LOW || s->low == 0)
        && (rule->takes & P_HIGH || s->high == 0);
}

static bool fields_good(const Op *op)
{
    for (unsigned i = 0; i < op->steps; i++)
        if (!step_good(&op->step[i]))
            return false;
    return op->field < FIELDS;
}

/* Numbers 4 to 7, each over all places of the operator before the next. */
static int judge_op(const Sheet *sh, const Op *op, Seen *seen)
{
    VarUse use;

    if (!queues_known(sh, op, seen))
        return R_QUEUE;
    bool once = add_queues(&seen->used, op->in, op->ins);
    if (!add_queues(&seen->defined, op->out, op->outs) || !once)
        return R_TWICE;
    if (!vars_good(sh, op, seen))
        return R_VAR;
    if (!fields_good(op))
        return R_STEP;
    use = var_use(op);
    seen->named |= use.named;
    seen->cursors |= use.cursor;
    return OK;
}

static uint32_t low_bits(unsigned n)
{
    return (UINT32_C(1) << n) - 1;
}

static bool head_fits(size_t inputs, unsigned queues, unsigned vars,
                      size_t ops)
{
    return inputs >= 1 && inputs <= INPUTS && queues >= inputs
        && queues <= QUEUES && vars <= VARS && ops <= OPS;
}

static int read_head(Reader *rd, Sheet *sh)
{
    Record rec;

    if (!next_record(rd, &rec))
        return R_SHAPE;
    if (rec.kind != K_HEAD)
        return R_KIND;
    if (rec.length != HEAD_BODY)
        return R_SHAPE;
    sh->inputs = rec.body[0];
    sh->queues = rec.body[1];
    sh->vars = rec.body[2];
    sh->ops = rec.body[3];
    return head_fits(sh->inputs, sh->queues, sh->vars, sh->ops) ? OK : R_HEAD;
}

static int read_op(Reader *rd, const Sheet *sh, Op *op, Seen *seen)
{
    Record rec;

    if (!next_record(rd, &rec))
        return R_SHAPE;
    if (rec.kind < K_LINE || rec.kind > K_GATHER)
        return R_KIND;
    if (!op_length_fits(rec.kind, rec.length))
        return R_SHAPE;
    *op = decode_op(&rec);
    return judge_op(sh, op, seen);
}

/* Head and operators; `defined` gets the queues that they define. */
static Verdict read_records(Reader *rd, Sheet *sh, uint32_t *defined)
{
    Seen seen = { 0, 0, 0, 0 };
    int r;

    memset(sh, 0, sizeof *sh);
    r = read_head(rd, sh);
    if (r != OK)
        return verdict(r, 0);
    seen.defined = low_bits(sh->inputs);
    for (unsigned i = 0; i < sh->ops; i++) {
        r = read_op(rd, sh, &sh->op[i], &seen);
        if (r != OK)
            return verdict(r, i + 1);
    }
    *defined = seen.defined;
    return verdict(OK, 0);
}

static Verdict check_all_defined(const Sheet *sh, uint32_t defined)
{
    return verdict(defined == low_bits(sh->queues) ? OK : R_TWICE,
                   sh->ops + 1u);
}

static Verdict read_sheet(const uint8_t *data, size_t length, Sheet *sh)
{
    Reader rd = { data, length, 0, 0 };
    uint32_t defined = 0;
    Verdict v = read_records(&rd, sh, &defined);

    if (v.number != OK)
        return v;
    if (!at_end(&rd))
        return verdict(R_SHAPE, sh->ops + 1u);
    return check_all_defined(sh, defined);
}

/* ---- writing ---- */

static uint8_t *encode_bytes(uint8_t *b, const uint8_t *from, unsigned n)
{
    memcpy(b, from, n);
    return b + n;
}

static uint8_t *encode_line(uint8_t *b, const Op *op)
{
    b = put8(put8(b, op->in[0]), op->out[0]);
    for (unsigned i = 0; i < op->steps; i++) {
        const Step *s = &op->step[i];
        b = put8(put8(put8(put8(b, s->fn), s->var), s->p), s->r);
        b = put32(put32(b, s->low), s->high);
    }
    return b;
}

static uint8_t *encode_body(uint8_t *b, const Op *op)
{
    switch (op->kind) {
    case K_LINE:
        return encode_line(b, op);
    case K_LATEST:
        return put8(put8(put8(b, op->in[0]), op->var), op->field);
    case K_DOUBLE:
        return encode_bytes(put8(b, op->in[0]), op->out, op->outs);
    case K_DEAL:
        return encode_bytes(put8(put8(b, op->var), op->in[0]),
                            op->out, op->outs);
    default:
        return encode_bytes(put8(put8(b, op->var), op->out[0]),
                            op->in, op->ins);
    }
}

/* Needs MAX_SHEET bytes; answers how many it used. */
static size_t encode_sheet(const Sheet *sh, uint8_t *buffer)
{
    uint8_t *b = put16(put16(buffer, HEAD_BODY), K_HEAD);

    b = put8(put8(b, sh->inputs), sh->queues);
    b = put8(put8(b, sh->vars), sh->ops);
    for (unsigned i = 0; i < sh->ops; i++) {
        uint8_t *end = encode_body(b + RECORD_HEAD, &sh->op[i]);
        put16(put16(b, (unsigned)(end - b) - RECORD_HEAD), sh->op[i].kind);
        b = end;
    }
    return (size_t)(b - buffer);
}

/* ---- printing text ---- */

static uint8_t *put_string(uint8_t *b, const char *s)
{
    return encode_bytes(b, (const uint8_t *)s, (unsigned)strlen(s));
}

static uint8_t *put_decimal(uint8_t *b, int32_t n)
{
    uint32_t left = n < 0 ? 0 - (uint32_t)n : (uint32_t)n;
    uint8_t digit[10];
    unsigned digits = 0;

    do
        digit[digits++] = (uint8_t)('0' + left % 10);
    while ((left /= 10) != 0);
    if (n < 0)
        b = put8(b, '-');
    while (digits > 0)
        b = put8(b, digit[--digits]);
    return b;
}

static uint8_t *put_argument(uint8_t *b, const char *before, int32_t n)
{
    return put_decimal(put_string(b, before), n);
}

static uint8_t *put_step(uint8_t *b, const Step *s)
{
    const StepRule *rule = step_rule(s);

    b = put_string(b, rule->name);
    if (rule->takes & P_VAR)
        b = put_argument(put_argument(b, "[$v", s->var), ",", s->p);
    else
        b = put_argument(b, "[", s->p);
    if (rule->takes & P_R)
        b = put_argument(b, ",", s->r);
    if (rule->takes & P_LOW)
        b = put_argument(b, ",", s->low);
    if (rule->takes & P_HIGH)
        b = put_argument(b, ",", s->high);
    return put8(b, ']');
}

static uint8_t *put_function(uint8_t *b, const Op *op)
{
    switch (op->kind) {
    case K_LINE:
        b = put_step(b, &op->step[0]);
        for (unsigned i = 1; i < op->steps; i++)
            b = put_step(put_string(b, " | "), &op->step[i]);
        return b;
    case K_LATEST:
        return put8(put_argument(b, "Latest[", op->field), ']');
    case K_DOUBLE:
        return put_string(b, "Double");
    case K_DEAL:
        return put_string(b, "Deal");
    default:
        return put_string(b, "Gather");
    }
}

/* One side of an operator; var is NO_VAR where no variable stands on it. */
static uint8_t *put_side(uint8_t *b, const uint8_t *queue, unsigned n,
                         unsigned var)
{
    b = put8(b, '(');
    for (unsigned i = 0; i < n; i++)
        b = put_argument(b, i == 0 ? "q" : ", q", queue[i]);
    if (var != NO_VAR)
        b = put_argument(b, n == 0 ? "$v" : ", $v", (int32_t)var);
    return put8(b, ')');
}

static uint8_t *put_op(uint8_t *b, const Op *op)
{
    b = put_side(put8(b, ' '), op->out, op->outs,
                 has_var(op) ? op->var : NO_VAR);
    b = put_function(put_string(b, " <- "), op);
    b = put_side(b, op->in, op->ins, has_cursor(op) ? op->var : NO_VAR);
    return put8(b, ';');
}

static uint8_t *put_list(uint8_t *b, const char *word, uint32_t set)
{
    const char *before = " q";

    b = put_string(b, word);
    for (unsigned q = 0; q < QUEUES; q++)
        if (bit(set, q)) {
            b = put_argument(b, before, (int32_t)q);
            before = ", q";
        }
    return put8(b, ';');
}

static uint32_t output_set(const Sheet *sh)
{
    uint32_t used = 0;

    for (unsigned i = 0; i < sh->ops; i++)
        add_queues(&used, sh->op[i].in, sh->op[i].ins);
    return low_bits(sh->queues) & ~used;
}

/* Needs MAX_TEXT bytes; answers how many it used. */
static size_t print_sheet(const Sheet *sh, uint8_t *buffer)
{
    uint8_t *b = put_list(buffer, "output", output_set(sh));

    b = put_list(b, " input", low_bits(sh->inputs));
    b = put8(put_argument(b, " vars ", sh->vars), ';');
    for (unsigned i = 0; i < sh->ops; i++)
        b = put_op(b, &sh->op[i]);
    return (size_t)(b - buffer);
}

/* ---- reading text ---- */

/*
 * Each text_ function takes one piece of the grammar, with the blanks before
 * it. Where it answers false, `at` is the first byte after which no text can
 * follow. Behind the text stands a 0, which no token holds, so a text cut
 * short is refused at its length without a test for the end at each byte.
 */
typedef struct {
    const uint8_t *at, *end;
} Text;

static bool is_blank(unsigned c)
{
    return c == ' ' || c == '\t' || c == '\n' || c == '\r';
}

static void skip_blanks(Text *t)
{
    while (is_blank(*t->at))
        t->at++;
}

/* One byte that is this one, no blank before it. */
static bool exactly(Text *t, unsigned c)
{
    if (*t->at != c)
        return false;
    t->at++;
    return true;
}

static bool text_word(Text *t, const char *s)
{
    skip_blanks(t);
    while (*s != 0)
        if (!exactly(t, (uint8_t)*s++))
            return false;
    return true;
}

static bool text_mark(Text *t, unsigned c)
{
    skip_blanks(t);
    return exactly(t, c);
}

static bool comes(Text *t, unsigned c)
{
    skip_blanks(t);
    return *t->at == c;
}

/*
 * The longest decimal up to max. A digit that is left over is refused at once,
 * since only a mark or a blank can follow a decimal.
 */
static bool text_decimal(Text *t, uint64_t max, uint64_t *value)
{
    unsigned d = *t->at - (unsigned)'0';

    if (d > 9)
        return false;
    *value = d;
    t->at++;
    while (*value != 0 && (d = *t->at - (unsigned)'0') <= 9
           && *value * 10 + d <= max) {
        *value = *value * 10 + d;
        t->at++;
    }
    return true;
}

static bool text_small(Text *t, unsigned max, uint8_t *value)
{
    uint64_t v;

    if (!text_decimal(t, max, &v))
        return false;
    *value = (uint8_t)v;
    return true;
}

static bool text_queue(Text *t, uint8_t *q)
{
    return text_mark(t, 'q') && text_small(t, QUEUES - 1, q);
}

static bool text_var(Text *t, uint8_t *var)
{
    return text_word(t, "$v") && text_small(t, VARS - 1, var);
}

/* The variable's second place in an operator: spelled as in the first. */
static bool text_same_var(Text *t, unsigned var)
{
    return text_word(t, "$v") && (var < 10 || exactly(t, '0' + var / 10))
        && exactly(t, '0' + var % 10);
}

static bool text_byte(Text *t, uint8_t *value)
{
    skip_blanks(t);
    return text_small(t, UINT8_MAX, value);
}

static bool text_number(Text *t, int32_t *value)
{
    bool minus = text_mark(t, '-');
    uint64_t v;

    if (minus && *t->at == '0')
        return false;
    if (!text_decimal(t, (uint64_t)INT32_MAX + minus, &v))
        return false;
    *value = to_signed(minus ? 0 - (uint32_t)v : (uint32_t)v);
    return true;
}

/* The function that can stand here; its name is still to be compared. */
static unsigned function_at(const uint8_t *b)
{
    switch (b[0]) {
    case 'K':
        return F_KEEP;
    case 'A':
        return F_ADD;
    case 'S':
        return F_STAMP;
    default:
        return b[0] == 'C' && b[1] == 'o' && b[2] == 'u' ? F_COUNT : F_COPY;
    }
}

static bool text_step(Text *t, Step *s)
{
    const StepRule *rule;

    skip_blanks(t);
    s->fn = (uint8_t)function_at(t->at);
    s->var = NO_VAR;
    rule = &STEP_RULES[s->fn];
    return text_word(t, rule->name) && text_mark(t, '[')
        && (!(rule->takes & P_VAR)
            || (text_var(t, &s->var) && text_mark(t, ',')))
        && text_byte(t, &s->p)
        && (!(rule->takes & P_R)
            || (text_mark(t, ',') && text_byte(t, &s->r)))
        && (!(rule->takes & P_LOW)
            || (text_mark(t, ',') && text_number(t, &s->low)))
        && (!(rule->takes & P_HIGH)
            || (text_mark(t, ',') && text_number(t, &s->high)))
        && text_mark(t, ']');
}

static bool text_steps(Text *t, Op *op)
{
    do
        if (!text_step(t, &op->step[op->steps++]))
            return false;
    while (op->steps < MAX_STEPS && text_mark(t, '|'));
    return true;
}

/* The left side; what stands on it decides the operator's kind. */
static bool text_left(Text *t, Op *op)
{
    static const uint8_t with_var[] = {
        K_LATEST, K_GATHER, K_DEAL, K_DEAL, K_DEAL
    };

    if (!text_mark(t, '('))
        return false;
    while (!comes(t, '$')) {
        if (op->outs == MAX_WAYS || !text_queue(t, &op->out[op->outs++]))
            return false;
        if (op->outs <= 2 && text_mark(t, ')')) {
            op->kind = op->outs == 1 ? K_LINE : K_DOUBLE;
            return true;
        }
        if (!text_mark(t, ','))
            return false;
    }
    op->kind = with_var[op->outs];
    return text_var(t, &op->var) && text_mark(t, ')');
}

/* What stands between the arrow and the right side. */
static bool text_function(Text *t, Op *op)
{
    switch (op->kind) {
    case K_LINE:
        return text_steps(t, op);
    case K_LATEST:
        return text_word(t, "Latest") && text_mark(t, '[')
            && text_byte(t, &op->field) && text_mark(t, ']');
    case K_DOUBLE:
        return text_word(t, "Double");
    case K_DEAL:
        return text_word(t, "Deal");
    default:
        return text_word(t, "Gather");
    }
}

static bool text_right(Text *t, Op *op)
{
    bool gather = op->kind == K_GATHER;
    unsigned least = gather ? MIN_WAYS : 1, most = gather ? MAX_WAYS : 1;

    if (!text_mark(t, '(') || !text_queue(t, &op->in[op->ins++]))
        return false;
    while (has_cursor(op)) {
        if (!text_mark(t, ','))
            return false;
        if (op->ins == most || (op->ins >= least && comes(t, '$')))
            return text_same_var(t, op->var) && text_mark(t, ')');
        if (!text_queue(t, &op->in[op->ins++]))
            return false;
    }
    return text_mark(t, ')');
}

/* All operators are read; those past the last place are not kept. */
static bool text_ops(Text *t, Sheet *sh, size_t *ops)
{
    Op spare, *op;

    for (*ops = 0; skip_blanks(t), t->at != t->end; ++*ops) {
        op = *ops < OPS ? &sh->op[*ops] : &spare;
        memset(op, 0, sizeof *op);
        if (!text_left(t, op) || !text_word(t, "<-") || !text_function(t, op)
            || !text_right(t, op) || !text_mark(t, ';'))
            return false;
    }
    return true;
}

/* A list of any length, as far as it has to be known. */
typedef struct {
    const uint8_t *start;           /* first name, or `;` of an empty list */
    size_t names;
    uint32_t set;
    bool falls;                     /* some name is not above all before it */
} NameList;

static bool text_name(Text *t, NameList *list)
{
    uint8_t q;

    if (!text_queue(t, &q))
        return false;
    list->falls |= list->set >> q != 0;
    list->set |= UINT32_C(1) << q;
    list->names++;
    return true;
}

static bool text_list(Text *t, const char *word, NameList *list)
{
    bool apart;

    if (!text_word(t, word))
        return false;
    apart = is_blank(*t->at);
    skip_blanks(t);
    list->start = t->at;
    if (exactly(t, ';'))
        return true;
    if (!apart)
        return false;
    do
        if (!text_name(t, list))
            return false;
    while (text_mark(t, ','));
    return text_mark(t, ';');
}

/* What a text says, beside the operators that are kept. */
typedef struct {
    NameList outputs, inputs;
    uint8_t vars;
    size_t ops;
} Said;

static bool text_all(Text *t, Sheet *sh, Said *said)
{
    return text_list(t, "output", &said->outputs)
        && text_list(t, "input", &said->inputs)
        && text_word(t, "vars") && is_blank(*t->at)
        && text_byte(t, &said->vars) && text_mark(t, ';')
        && text_ops(t, sh, &said->ops);
}

/* Q; with too many operators the head is refused whatever Q is. */
static unsigned queues_said(const Sheet *sh, const Said *said)
{
    uint32_t set = said->inputs.set;
    unsigned n = 0;

    for (unsigned i = 0; i < OPS && i < said->ops; i++) {
        add_queues(&set, sh->op[i].in, sh->op[i].ins);
        add_queues(&set, sh->op[i].out, sh->op[i].outs);
    }
    while (set >> n != 0)
        n++;
    return n;
}

static Verdict judge_said(Sheet *sh, const Said *said)
{
    unsigned queues = queues_said(sh, said);
    Seen seen = { 0, 0, 0, 0 };

    if (!head_fits(said->inputs.names, queues, said->vars, said->ops))
        return verdict(R_HEAD, 0);
    sh->inputs = (uint8_t)said->inputs.names;
    sh->queues = (uint8_t)queues;
    sh->vars = said->vars;
    sh->ops = (uint8_t)said->ops;
    seen.defined = low_bits(sh->inputs);
    for (unsigned i = 0; i < sh->ops; i++) {
        int r = judge_op(sh, &sh->op[i], &seen);
        if (r != OK)
            return verdict(r, i + 1);
    }
    return check_all_defined(sh, seen.defined);
}

static bool list_is(const NameList *list, uint32_t set)
{
    return !list->falls && list->set == set;
}

/* The byte behind the text is 0. */
static Verdict read_text(const uint8_t *text, size_t length, Sheet *sh)
{
    Text t = { text, text + length };
    Said said;
    Verdict v;

    memset(sh, 0, sizeof *sh);
    memset(&said, 0, sizeof said);
    if (!text_all(&t, sh, &said))
        return verdict(R_TEXT, (unsigned)(t.at - text));
    v = judge_said(sh, &said);
    if (v.number != OK)
        return v;
    if (!list_is(&said.outputs, output_set(sh)))
        return verdict(R_TEXT, (unsigned)(said.outputs.start - text));
    if (!list_is(&said.inputs, low_bits(sh->inputs)))
        return verdict(R_TEXT, (unsigned)(said.inputs.start - text));
    return v;
}

/* ---- queues ---- */

static const Op *reader_of(const Sheet *sh, unsigned q)
{
    for (unsigned i = 0; i < sh->ops; i++)
        for (unsigned j = 0; j < sh->op[i].ins; j++)
            if (sh->op[i].in[j] == q)
                return &sh->op[i];
    return NULL;
}

static bool is_input(const Sheet *sh, unsigned q)
{
    return q < sh->inputs;
}

static bool is_output(const Sheet *sh, unsigned q)
{
    return q < sh->queues && reader_of(sh, q) == NULL;
}

static Item item_at(const State *st, unsigned q, unsigned i)
{
    Item item;

    memcpy(item.f, st->store + q * PART + i * FIELDS, sizeof item.f);
    return item;
}

static void push(State *st, unsigned q, const Item *item)
{
    memcpy(st->store + q * PART + st->count[q] * FIELDS, item->f,
           sizeof item->f);
    st->count[q]++;
}

static Item pop(State *st, unsigned q)
{
    int32_t *part = st->store + q * PART;
    Item item = item_at(st, q, 0);

    memmove(part, part + FIELDS, (PART - FIELDS) * sizeof *part);
    memset(part + PART - FIELDS, 0, FIELDS * sizeof *part);
    st->count[q]--;
    return item;
}

/* ---- state ---- */

static bool part_good(const State *st, unsigned q)
{
    const int32_t *part = st->store + q * PART;

    if (st->count[q] > ROOM)
        return false;
    for (unsigned i = st->count[q] * FIELDS; i < PART; i++)
        if (part[i] != 0)
            return false;
    return true;
}

static bool cursor_good(const Op *op, const State *st)
{
    return !has_cursor(op) || (st->var[op->var] >= 0
        && (uint32_t)st->var[op->var] < ways(op));
}

static bool state_good(const Sheet *sh, const State *st)
{
    for (unsigned q = 0; q < QUEUES; q++)
        if ((q >= sh->queues && st->count[q] != 0) || !part_good(st, q))
            return false;
    for (unsigned v = sh->vars; v < VARS; v++)
        if (st->var[v] != 0)
            return false;
    for (unsigned i = 0; i < sh->ops; i++)
        if (!cursor_good(&sh->op[i], st))
            return false;
    return true;
}

static int fresh(State *st, unsigned store_length)
{
    if (store_length != STORE)
        return R_STATE;
    memset(st, 0, sizeof *st);
    return OK;
}

/* The inner calls below take a good state; the outer ones check for it. */

static int feed_good(const Sheet *sh, State *st, unsigned q, const Item *item)
{
    if (!is_input(sh, q))
        return R_NO_END;
    if (st->count[q] == ROOM)
        return R_ROOM;
    push(st, q, item);
    return OK;
}

static int feed(const Sheet *sh, State *st, unsigned q, const Item *item)
{
    return state_good(sh, st) ? feed_good(sh, st, q, item) : R_STATE;
}

static int take(const Sheet *sh, State *st, unsigned q, Item *item)
{
    if (!state_good(sh, st))
        return R_STATE;
    if (!is_output(sh, q))
        return R_NO_END;
    if (st->count[q] == 0)
        return R_EMPTY;
    *item = pop(st, q);
    return OK;
}

/* ---- firing ---- */

typedef struct {
    Item item;
    int32_t var[VARS];              /* the variables afterwards */
    uint8_t out[MAX_WAYS];          /* where the item goes */
    unsigned outs;
} Effect;

/* False where the step drops the item. */
static bool run_step(const Step *s, Item *item, int32_t *var)
{
    int32_t *p = &item->f[s->p];

    switch (s->fn) {
    case F_KEEP:
        return s->low <= *p && *p <= s->high;
    case F_ADD:
        *p = wrapping_add(*p, s->low);
        break;
    case F_COPY:
        item->f[s->r] = *p;
        break;
    case F_COUNT:
        var[s->var] = wrapping_add(var[s->var], 1);
        *p = var[s->var];
        break;
    default:
        *p = var[s->var];
        break;
    }
    return true;
}

static bool run_line(const Op *op, Effect *e)
{
    for (unsigned i = 0; i < op->steps; i++)
        if (!run_step(&op->step[i], &e->item, e->var))
            return false;
    return true;
}

static void move_cursor(const Op *op, int32_t *var)
{
    var[op->var] = (int32_t)(((uint32_t)var[op->var] + 1) % ways(op));
}

static void emit(Effect *e, unsigned q)
{
    e->out[e->outs++] = (uint8_t)q;
}

/* What firing the operator on its item does; the item is there. */
static Effect effect_of(const Op *op, const State *st, unsigned q)
{
    Effect e;

    e.item = item_at(st, q, 0);
    memcpy(e.var, st->var, sizeof e.var);
    e.outs = 0;
    switch (op->kind) {
    case K_LINE:
        if (run_line(op, &e))
            emit(&e, op->out[0]);
        break;
    case K_LATEST:
        e.var[op->var] = e.item.f[op->field];
        break;
    case K_DOUBLE:
        emit(&e, op->out[0]);
        emit(&e, op->out[1]);
        break;
    case K_DEAL:
        emit(&e, op->out[st->var[op->var]]);
        move_cursor(op, e.var);
        break;
    default:
        emit(&e, op->out[0]);
        move_cursor(op, e.var);
        break;
    }
    return e;
}

/* Whether firing q is accepted, and if so with what effect. */
static int plan_fire(const Sheet *sh, const State *st, unsigned q, Effect *e)
{
    const Op *op = reader_of(sh, q);

    if (op == NULL)
        return R_NO_END;
    if (st->count[q] == 0)
        return R_EMPTY;
    if (op->kind == K_GATHER && op->in[st->var[op->var]] != q)
        return R_WAITS;
    *e = effect_of(op, st, q);
    for (unsigned i = 0; i < e->outs; i++)
        if (st->count[e->out[i]] == ROOM)
            return R_ROOM;
    return OK;
}

static int fire_good(const Sheet *sh, State *st, unsigned q)
{
    Effect e;
    int r = plan_fire(sh, st, q, &e);

    if (r != OK)
        return r;
    pop(st, q);
    memcpy(st->var, e.var, sizeof st->var);
    for (unsigned i = 0; i < e.outs; i++)
        push(st, e.out[i], &e.item);
    return OK;
}

static int fire(const Sheet *sh, State *st, unsigned q)
{
    return state_good(sh, st) ? fire_good(sh, st, q) : R_STATE;
}

typedef struct {
    unsigned fired, skipped;
} Tally;

static void tally_fire(const Sheet *sh, State *st, unsigned q, Tally *t)
{
    if (fire_good(sh, st, q) == OK)
        t->fired++;
    else
        t->skipped++;
}

static int run(const Sheet *sh, State *st, const uint8_t *list, size_t n,
               Tally *t)
{
    t->fired = t->skipped = 0;
    if (!state_good(sh, st))
        return R_STATE;
    for (size_t i = 0; i < n; i++)
        tally_fire(sh, st, list[i], t);
    return OK;
}

static uint32_t ready_good(const Sheet *sh, const State *st)
{
    uint32_t set = 0;
    Effect e;

    for (unsigned q = 0; q < sh->queues; q++)
        if (plan_fire(sh, st, q, &e) == OK)
            set |= UINT32_C(1) << q;
    return set;
}

static unsigned count_ones(uint32_t set)
{
    unsigned n = 0;

    for (; set != 0; set &= set - 1)
        n++;
    return n;
}

static unsigned lowest_one(uint32_t set)
{
    unsigned i = 0;

    while (i < NO_READY && !bit(set, i))
        i++;
    return i;
}

/* ---- calm and worst ---- */

static bool ops_disturb(const Op *a, const Op *b)
{
    VarUse ua = var_use(a), ub = var_use(b);

    return (ua.named & ub.named) != 0;
}

static bool calm(const Sheet *sh)
{
    for (unsigned i = 0; i < sh->ops; i++)
        for (unsigned j = 0; j < i; j++)
            if (ops_disturb(&sh->op[i], &sh->op[j]))
                return false;
    return true;
}

static int worst(const Sheet *sh, const uint32_t *fed, uint32_t *count)
{
    for (unsigned q = 0; q < QUEUES; q++)
        if (fed[q] > (is_input(sh, q) ? ROOM : 0))
            return R_STATE;
    memcpy(count, fed, QUEUES * sizeof *count);
    for (unsigned i = 0; i < sh->ops; i++) {
        const Op *op = &sh->op[i];
        uint32_t n = 0;
        for (unsigned j = 0; j < op->ins; j++)
            n += count[op->in[j]];
        if (op->kind == K_DEAL)
            n = (n + op->outs - 1) / op->outs;
        for (unsigned j = 0; j < op->outs; j++)
            count[op->out[j]] = n;
    }
    return OK;
}

/* ---- rewritings ---- */

static void insert_op(Sheet *sh, unsigned at, const Op *op)
{
    memmove(&sh->op[at + 1], &sh->op[at], (sh->ops - at) * sizeof *op);
    sh->op[at] = *op;
    sh->ops++;
}

static void remove_op(Sheet *sh, unsigned at)
{
    sh->ops--;
    memmove(&sh->op[at], &sh->op[at + 1], (sh->ops - at) * sizeof *sh->op);
    memset(&sh->op[sh->ops], 0, sizeof *sh->op);
}

static void lower_queues(uint8_t *queue, unsigned n, unsigned gone)
{
    for (unsigned i = 0; i < n; i++)
        if (queue[i] > gone)
            queue[i]--;
}

static void remove_queue(Sheet *sh, unsigned gone)
{
    sh->queues--;
    for (unsigned i = 0; i < sh->ops; i++) {
        lower_queues(sh->op[i].in, sh->op[i].ins, gone);
        lower_queues(sh->op[i].out, sh->op[i].outs, gone);
    }
}

/* Numbers 13 to 15 for the one line that every rewriting starts from. */
static int check_line(const Sheet *sh, unsigned a, bool ways_good)
{
    if (!calm(sh))
        return R_NOT_CALM;
    if (a >= sh->ops || !ways_good)
        return R_NO_OP;
    return sh->op[a].kind == K_LINE ? OK : R_NO_LINE;
}

/* The same for a pair of lines, a and the b that reads its out. */
static int check_pair(const Sheet *sh, unsigned a, unsigned *b)
{
    int r = check_line(sh, a, true);
    const Op *next;

    if (r != OK)
        return r;
    next = reader_of(sh, sh->op[a].out[0]);
    if (next == NULL || next->kind != K_LINE)
        return R_NO_LINE;
    *b = (unsigned)(next - sh->op);
    return OK;
}

static int fuse(Sheet *sh, unsigned a)
{
    unsigned b, gone;
    int r = check_pair(sh, a, &b);
    Op *first, *second;

    if (r != OK)
        return r;
    first = &sh->op[a];
    second = &sh->op[b];
    if (first->steps + second->steps > MAX_STEPS)
        return R_LIMIT;
    memcpy(first->step + first->steps, second->step,
           second->steps * sizeof(Step));
    first->steps = (uint8_t)(first->steps + second->steps);
    gone = first->out[0];
    first->out[0] = second->out[0];
    remove_op(sh, b);
    remove_queue(sh, gone);
    return OK;
}

/* Every step takes no variable and, if asked for, never drops. */
static bool steps_allowed(const Op *op, bool drop_allowed)
{
    for (unsigned i = 0; i < op->steps; i++) {
        const StepRule *rule = step_rule(&op->step[i]);
        if (rule->takes & P_VAR || (rule->may_drop && !drop_allowed))
            return false;
    }
    return true;
}

static Op deal_op(unsigned var, unsigned in, unsigned first_out, unsigned k)
{
    Op op;

    memset(&op, 0, sizeof op);
    op.kind = K_DEAL;
    op.var = (uint8_t)var;
    op.ins = 1;
    op.in[0] = (uint8_t)in;
    op.outs = (uint8_t)k;
    for (unsigned j = 0; j < k; j++)
        op.out[j] = (uint8_t)(first_out + j);
    return op;
}

static Op gather_op(unsigned var, unsigned first_in, unsigned out, unsigned k)
{
    Op op;

    memset(&op, 0, sizeof op);
    op.kind = K_GATHER;
    op.var = (uint8_t)var;
    op.outs = 1;
    op.out[0] = (uint8_t)out;
    op.ins = (uint8_t)k;
    for (unsigned j = 0; j < k; j++)
        op.in[j] = (uint8_t)(first_in + j);
    return op;
}

static bool split_fits(const Sheet *sh, unsigned k)
{
    return sh->queues + 2 * k <= QUEUES && sh->vars + 2u <= VARS
        && sh->ops + k + 1 <= OPS;
}

static int split(Sheet *sh, unsigned a, unsigned k)
{
    int r = check_line(sh, a, ways_fit(k));
    unsigned q = sh->queues, v = sh->vars;
    Op line, op;

    if (r != OK)
        return r;
    if (!split_fits(sh, k))
        return R_LIMIT;
    line = sh->op[a];
    if (!steps_allowed(&line, false))
        return R_FORBIDDEN;
    sh->op[a] = deal_op(v, line.in[0], q, k);
    for (unsigned j = 0; j < k; j++) {
        op = line;
        op.in[0] = (uint8_t)(q + j);
        op.out[0] = (uint8_t)(q + k + j);
        insert_op(sh, a + 1 + j, &op);
    }
    op = gather_op(v + 1, q + k, line.out[0], k);
    insert_op(sh, a + 1 + k, &op);
    sh->queues = (uint8_t)(q + 2 * k);
    sh->vars = (uint8_t)(v + 2);
    return OK;
}

typedef struct {
    unsigned reads, writes;         /* fields, as bits */
} FieldUse;

static unsigned field_bits(const Step *s, unsigned places)
{
    return (places & P_P ? 1u << s->p : 0) | (places & P_R ? 1u << s->r : 0);
}

static FieldUse field_use(const Op *op)
{
    FieldUse use = { 0, 0 };

    for (unsigned i = 0; i < op->steps; i++) {
        const StepRule *rule = step_rule(&op->step[i]);
        use.reads |= field_bits(&op->step[i], rule->reads);
        use.writes |= field_bits(&op->step[i], rule->writes);
    }
    return use;
}

static bool fields_clash(const Op *a, const Op *b)
{
    FieldUse ua = field_use(a), ub = field_use(b);

    return (ua.writes & (ub.reads | ub.writes)) != 0
        || (ub.writes & (ua.reads | ua.writes)) != 0;
}

static void swap_steps(Op *a, Op *b)
{
    Op old = *a;

    a->steps = b->steps;
    memcpy(a->step, b->step, sizeof a->step);
    b->steps = old.steps;
    memcpy(b->step, old.step, sizeof b->step);
}

static int reorder(Sheet *sh, unsigned a)
{
    unsigned b;
    int r = check_pair(sh, a, &b);

    if (r != OK)
        return r;
    if (!steps_allowed(&sh->op[a], true) || !steps_allowed(&sh->op[b], true)
        || fields_clash(&sh->op[a], &sh->op[b]))
        return R_FORBIDDEN;
    swap_steps(&sh->op[a], &sh->op[b]);
    return OK;
}

/* ---- bench ---- */

static void print_item(const Item *item)
{
    for (unsigned i = 0; i < FIELDS; i++)
        printf(" %ld", (long)item->f[i]);
    putchar('\n');
}

static void print_refusal(int number)
{
    printf("refused %d\n", number);
}

static void print_refusal_at(FILE *where, Verdict v)
{
    fprintf(where, "refused %d at %s %u", v.number,
            v.number == R_TEXT ? "byte" : "record", v.at);
}

static void answer_refusal_at(Verdict v)
{
    print_refusal_at(stdout, v);
    putchar('\n');
}

static Item decode_item(const uint8_t *b)
{
    Item item;

    for (unsigned i = 0; i < FIELDS; i++)
        item.f[i] = get_signed(b + 4 * i);
    return item;
}

/* One feed or firing; *firing tells that no feed may come any more. */
static int bench_record(const Sheet *sh, State *st, const Record *rec,
                        bool *firing, Tally *t)
{
    Item item;

    if (rec->kind != K_FIRE && (rec->kind != K_FEED || *firing))
        return R_KIND;
    if (rec->length != (rec->kind == K_FEED ? FEED_BODY : FIRE_BODY))
        return R_SHAPE;
    if (rec->kind == K_FEED) {
        item = decode_item(rec->body + 1);
        return feed_good(sh, st, rec->body[0], &item);
    }
    *firing = true;
    tally_fire(sh, st, rec->body[0], t);
    return OK;
}

static Verdict bench_records(Reader *rd, const Sheet *sh, State *st, Tally *t)
{
    bool firing = false;

    while (!at_end(rd)) {
        Record rec;
        int r = next_record(rd, &rec)
            ? bench_record(sh, st, &rec, &firing, t) : R_SHAPE;
        if (r != OK)
            return verdict(r, rec.number);
    }
    return verdict(OK, 0);
}

static Verdict bench_run(const uint8_t *data, size_t length, Sheet *sh,
                         State *st, Tally *t)
{
    Reader rd = { data, length, 0, 0 };
    uint32_t defined = 0;
    Verdict v;

    if (length > INPUT_MAX)
        return verdict(R_LENT, 0);
    v = read_records(&rd, sh, &defined);
    if (v.number == OK)
        v = check_all_defined(sh, defined);
    if (v.number == OK)
        v = bench_records(&rd, sh, st, t);
    return v;
}

static void print_report(const Sheet *sh, const State *st, Tally t)
{
    printf("fired %u skipped %u rest %s\n", t.fired, t.skipped,
           ready_good(sh, st) == 0 ? "yes" : "no");
    for (unsigned q = 0; q < sh->queues; q++)
        for (unsigned i = 0; is_output(sh, q) && i < st->count[q]; i++) {
            Item item = item_at(st, q, i);
            printf("q %u", q);
            print_item(&item);
        }
    for (unsigned v = 0; v < sh->vars; v++)
        printf("v %u %ld\n", v, (long)st->var[v]);
}

static void bench(const uint8_t *data, size_t length)
{
    static State st;
    static Sheet sh;
    Tally t = { 0, 0 };
    Verdict v;

    memset(&st, 0, sizeof st);
    v = bench_run(data, length, &sh, &st, &t);
    if (v.number == OK)
        print_report(&sh, &st, t);
    else
        answer_refusal_at(v);
}

/* ---- replay ---- */

typedef struct {
    Sheet sheet;
    State state;
} Held;

typedef struct {
    const uint8_t *body;
    size_t length;
} Call;

static void answer_done(int r)
{
    if (r == OK)
        puts("done");
    else
        print_refusal(r);
}

/* Each call answers false for a bad call, having printed and changed nothing. */

static bool call_bench(Held *h, Call c)
{
    (void)h;
    bench(c.body, c.length);
    return true;
}

/* Bytes and texts are read alike, and written alike. */
typedef Verdict ReadSheet(const uint8_t *data, size_t length, Sheet *sh);
typedef size_t WriteSheet(const Sheet *sh, uint8_t *buffer);

static bool read_into(Held *h, Call c, ReadSheet *read)
{
    Sheet sh;
    Verdict v = read(c.body, c.length, &sh);

    if (v.number == OK) {
        h->sheet = sh;
        puts("read");
    } else {
        answer_refusal_at(v);
    }
    return true;
}

static bool call_read(Held *h, Call c)
{
    return read_into(h, c, read_sheet);
}

static bool call_read_text(Held *h, Call c)
{
    return read_into(h, c, read_text);
}

static void print_hex(const uint8_t *b, size_t n)
{
    static const char digit[] = "0123456789abcdef";
    char line[2 * LENT_MAX];

    for (size_t i = 0; i < n; i++) {
        line[2 * i] = digit[b[i] >> 4];
        line[2 * i + 1] = digit[b[i] & 15];
    }
    fwrite(line, 2, n, stdout);
}

_Static_assert(MAX_SHEET <= LENT_MAX && MAX_TEXT <= LENT_MAX,
               "the longest lent buffer takes every sheet");

/* Writes the held sheet into a lent buffer, and answers the whole of it. */
static bool write_lent(const Held *h, Call c, const char *word,
                       WriteSheet *write)
{
    uint8_t lent[LENT_MAX];
    size_t length = get16(c.body), n;

    if (length > LENT_MAX)
        return false;
    n = write(&h->sheet, lent);
    if (n > length) {
        answer_refusal_at(verdict(R_LENT, 0));
        return true;
    }
    memset(lent + n, LENT_FILL, length - n);
    printf("%s ", word);
    print_hex(lent, length);
    putchar('\n');
    return true;
}

static bool call_write(Held *h, Call c)
{
    return write_lent(h, c, "bytes", encode_sheet);
}

static bool call_print_text(Held *h, Call c)
{
    return write_lent(h, c, "text", print_sheet);
}

static bool call_calm(Held *h, Call c)
{
    (void)c;
    puts(calm(&h->sheet) ? "calm" : "not calm");
    return true;
}

static bool call_worst(Held *h, Call c)
{
    uint32_t fed[QUEUES], count[QUEUES];
    int r;

    for (unsigned q = 0; q < QUEUES; q++)
        fed[q] = get32(c.body + 4 * q);
    r = worst(&h->sheet, fed, count);
    if (r != OK) {
        print_refusal(r);
        return true;
    }
    printf("worst");
    for (unsigned q = 0; q < QUEUES; q++)
        printf(" %lu", (unsigned long)count[q]);
    putchar('\n');
    return true;
}

static bool call_fuse(Held *h, Call c)
{
    answer_done(fuse(&h->sheet, c.body[0]));
    return true;
}

static bool call_split(Held *h, Call c)
{
    answer_done(split(&h->sheet, c.body[0], c.body[1]));
    return true;
}

static bool call_reorder(Held *h, Call c)
{
    answer_done(reorder(&h->sheet, c.body[0]));
    return true;
}

static bool call_fresh(Held *h, Call c)
{
    unsigned n = get16(c.body);

    if (n > STORE)
        return false;
    answer_done(fresh(&h->state, n));
    return true;
}

static bool call_feed(Held *h, Call c)
{
    Item item = decode_item(c.body + 1);

    answer_done(feed(&h->sheet, &h->state, c.body[0], &item));
    return true;
}

static bool call_take(Held *h, Call c)
{
    Item item;
    int r = take(&h->sheet, &h->state, c.body[0], &item);

    if (r != OK) {
        print_refusal(r);
        return true;
    }
    printf("item");
    print_item(&item);
    return true;
}

static bool call_fire(Held *h, Call c)
{
    answer_done(fire(&h->sheet, &h->state, c.body[0]));
    return true;
}

static bool call_run(Held *h, Call c)
{
    Tally t;
    int r = run(&h->sheet, &h->state, c.body, c.length, &t);

    if (r == OK)
        printf("fired %u skipped %u\n", t.fired, t.skipped);
    else
        print_refusal(r);
    return true;
}

static bool call_ready(Held *h, Call c)
{
    uint32_t set;

    (void)c;
    if (!state_good(&h->sheet, &h->state)) {
        print_refusal(R_STATE);
        return true;
    }
    set = ready_good(&h->sheet, &h->state);
    printf("ready %lu count %u lowest %u\n", (unsigned long)set,
           count_ones(set), lowest_one(set));
    return true;
}

static bool call_set_count(Held *h, Call c)
{
    if (c.body[0] >= QUEUES)
        return false;
    h->state.count[c.body[0]] = c.body[1];
    answer_done(OK);
    return true;
}

static bool call_set_var(Held *h, Call c)
{
    if (c.body[0] >= VARS)
        return false;
    h->state.var[c.body[0]] = get_signed(c.body + 1);
    answer_done(OK);
    return true;
}

static bool call_set_number(Held *h, Call c)
{
    unsigned place = get16(c.body);

    if (place >= STORE)
        return false;
    h->state.store[place] = get_signed(c.body + 2);
    answer_done(OK);
    return true;
}

static bool call_show(Held *h, Call c)
{
    const State *st = &h->state;

    (void)c;
    printf("counts");
    for (unsigned q = 0; q < QUEUES; q++)
        printf(" %u", (unsigned)st->count[q]);
    printf("\nvariables");
    for (unsigned v = 0; v < VARS; v++)
        printf(" %ld", (long)st->var[v]);
    putchar('\n');
    for (unsigned i = 0; i < STORE; i++)
        if (st->store[i] != 0)
            printf("s %u %ld\n", i, (long)st->store[i]);
    return true;
}

enum { ANY_LENGTH = -1, CALLS = 21 };

typedef struct {
    bool (*make)(Held *, Call);
    long length;                    /* of the body */
} CallRule;

static const CallRule CALL_RULES[CALLS] = {
    [1]  = { call_bench,      ANY_LENGTH },
    [2]  = { call_read,       ANY_LENGTH },
    [3]  = { call_write,      2 },
    [4]  = { call_calm,       0 },
    [5]  = { call_worst,      4 * QUEUES },
    [6]  = { call_fuse,       1 },
    [7]  = { call_split,      2 },
    [8]  = { call_reorder,    1 },
    [9]  = { call_fresh,      2 },
    [10] = { call_feed,       1 + 4 * FIELDS },
    [11] = { call_take,       1 },
    [12] = { call_fire,       1 },
    [13] = { call_run,        ANY_LENGTH },
    [14] = { call_ready,      0 },
    [15] = { call_set_count,  2 },
    [16] = { call_set_var,    5 },
    [17] = { call_set_number, 6 },
    [18] = { call_show,       0 },
    [19] = { call_read_text,  ANY_LENGTH },
    [20] = { call_print_text, 2 }
};

static bool make_call(Held *h, unsigned number, Call c)
{
    const CallRule *rule;

    if (number == 0 || number >= CALLS || c.length > BODY_MAX)
        return false;
    rule = &CALL_RULES[number];
    if (rule->length != ANY_LENGTH && (size_t)rule->length != c.length)
        return false;
    return rule->make(h, c);
}

/*
 * Reads a body, keeping at most BODY_MAX bytes and a 0 behind them, as texts
 * need it; false if the stream ends.
 */
static bool read_body(uint8_t *kept, uint32_t length)
{
    uint8_t passed[4096];

    if (length <= BODY_MAX) {
        kept[length] = 0;
        return fread(kept, 1, length, stdin) == length;
    }
    while (length > 0) {
        size_t part = length < sizeof passed ? length : sizeof passed;
        if (fread(passed, 1, part, stdin) != part)
            return false;
        length -= (uint32_t)part;
    }
    return true;
}

static void replay(void)
{
    static Held held;
    static uint8_t body[BODY_MAX + 1];
    uint8_t head[CALL_HEAD];
    size_t got;

    held.sheet.inputs = held.sheet.queues = 1;
    while ((got = fread(head, 1, sizeof head, stdin)) > 0) {
        Call c = { body, 0 };
        if (got == sizeof head)
            c.length = get32(head);
        if (got < sizeof head || !read_body(body, get32(head))) {
            puts("cut");
            return;
        }
        if (!make_call(&held, head[CALL_HEAD - 1], c))
            puts("bad call");
        puts("--");
    }
}

/* ---- to_text and to_bytes ---- */

/* Lines and columns count from 1; a line feed ends its line. */
static void print_place(const uint8_t *text, size_t at)
{
    unsigned line = 1, column = 1;

    for (size_t i = 0; i < at; i++) {
        column++;
        if (text[i] == '\n') {
            line++;
            column = 1;
        }
    }
    fprintf(stderr, ", line %u column %u", line, column);
}

static bool convert(const uint8_t *input, size_t length, ReadSheet *read,
                    WriteSheet *write)
{
    uint8_t output[LENT_MAX];
    Sheet sh;
    Verdict v = length > INPUT_MAX ? verdict(R_LENT, 0)
        : read(input, length, &sh);

    if (v.number == OK) {
        fwrite(output, 1, write(&sh, output), stdout);
        return true;
    }
    print_refusal_at(stderr, v);
    if (v.number == R_TEXT)
        print_place(input, v.at);
    fputc('\n', stderr);
    return false;
}

/* ---- main ---- */

/* Each program answers whether its input was taken. */

static bool run_bench(const uint8_t *input, size_t length)
{
    bench(input, length);
    return true;
}

static bool run_to_text(const uint8_t *input, size_t length)
{
    bool taken = convert(input, length, read_sheet, print_sheet);

    if (taken)
        putchar('\n');
    return taken;
}

static bool run_to_bytes(const uint8_t *input, size_t length)
{
    return convert(input, length, read_text, encode_sheet);
}

/* Enough of standard input to see that it is too long, and a 0 behind it. */
static bool with_input(bool (*program)(const uint8_t *, size_t))
{
    static uint8_t input[INPUT_MAX + 2];

    return program(input, fread(input, 1, INPUT_MAX + 1, stdin));
}

int main(int argc, char **argv)
{
    const char *name = argc == 2 ? argv[1] : "";
    bool taken = true;

    if (strcmp(name, "bench") == 0) {
        taken = with_input(run_bench);
    } else if (strcmp(name, "replay") == 0) {
        replay();
    } else if (strcmp(name, "to_text") == 0) {
        taken = with_input(run_to_text);
    } else if (strcmp(name, "to_bytes") == 0) {
        taken = with_input(run_to_bytes);
    } else {
        fputs("usage: peer bench | replay | to_text | to_bytes\n", stderr);
        return 2;
    }
    return taken && fflush(stdout) == 0 && !ferror(stdout) ? 0 : 1;
}
