// Plain C, as much of it as is measured beside the library. Of a session's calls: a stanza read strictly and its body decoded, a command looked at
// and noted in a table, a response written or read; each call gives the bytes it took or wrote, 0 where it refuses. And recipients and
// identities read and written.
#define _GNU_SOURCE // for memrchr
#include <stdint.h>
#include <string.h>

#define LIMIT 8192
#define LONGEST 1024

struct stanza {
    const uint8_t *line; // the arguments
    size_t line_len, body_len, taken;
    uint8_t body[LIMIT];
};

struct table {
    struct { size_t start, len, index; } entries[256];
    size_t count, most, used;
    uint8_t payloads[65536];
};

static struct {
    int client, phase, awaits;
    uint8_t name[32];
    size_t name_len;
    struct table recipients, identities, keys, headers, returned;
} session;

static const char BASE64[] = "ABCDEFGHIJKLMNOPQRSTUVWXYZabcdefghijklmnopqrstuvwxyz0123456789+/";
static const char BECH32[] = "qpzry9x8gf2tvdw0s3jn54khce6mua7l";
static const char CAPITALS[] = "QPZRY9X8GF2TVDW0S3JN54KHCE6MUA7L";
static int8_t value_of[256]; // -1 where there is none
static uint8_t symbol_of[256], capital_of[256];
#define NONE 32

// Before any other call.
void plain_tables(void)
{
    memset(value_of, -1, sizeof value_of);
    memset(symbol_of, NONE, sizeof symbol_of);
    memset(capital_of, NONE, sizeof capital_of);
    for (int i = 0; i < 64; i++) value_of[(uint8_t)BASE64[i]] = i;
    for (int i = 0; i < 32; i++) symbol_of[(uint8_t)BECH32[i]] = capital_of[(uint8_t)CAPITALS[i]] = i;
}

void plain_open(int client, const uint8_t *name, size_t name_len)
{
    plain_tables();
    memset(&session, 0, sizeof session);
    session.client = client;
    session.phase = 1;
    memcpy(session.name, name, name_len);
    session.name_len = name_len;
    session.recipients.most = session.identities.most = session.keys.most = 64;
    session.headers.most = session.returned.most = 256;
}

// One line of base64 without padding, of at most 64 characters, its last bits 0.
static int decode(const uint8_t *at, size_t len, struct stanza *s)
{
    uint8_t *out = s->body + s->body_len;
    uint32_t bits = 0;
    size_t i = 0;
    for (; i < len; i++) {
        int v = value_of[at[i]];
        if (v < 0) return 0;
        bits = bits << 6 | v;
        if (i % 4 == 3) {
            *out++ = bits >> 16;
            *out++ = bits >> 8;
            *out++ = bits;
        }
    }
    switch (len % 4) {
    case 1: return 0;
    case 2:
        if (bits & 15) return 0;
        *out++ = bits >> 4;
        break;
    case 3:
        if (bits & 3) return 0;
        *out++ = bits >> 10;
        *out++ = bits >> 2;
    }
    s->body_len = out - s->body;
    return 1;
}

static int read_stanza(const uint8_t *text, size_t len, struct stanza *s)
{
    if (len > LIMIT) len = LIMIT;
    const uint8_t *end = text + len, *at = text + 3;
    if (len < 4 || memcmp(text, "-> ", 3)) return 0;
    for (int space = 1; at < end && *at != '\n'; at++) {
        if (*at < 32 || *at > 126 || (space && *at == ' ')) return 0;
        space = *at == ' ';
    }
    if (at == end || at[-1] == ' ') return 0;
    s->line = text + 3;
    s->line_len = at - s->line;
    s->body_len = 0;
    for (size_t n = 64; n == 64; at += 1 + n) {
        const uint8_t *lf = memchr(at + 1, '\n', end - at - 1);
        if (!lf || lf - at > 65) return 0;
        n = lf - at - 1;
        if (!decode(at + 1, n, s)) return 0;
    }
    s->taken = at + 1 - text;
    return 1;
}

static size_t write_stanza(const uint8_t *line, size_t line_len, const uint8_t *body, size_t body_len, uint8_t *out, size_t out_len)
{
    size_t chars = (body_len * 4 + 2) / 3, total = 3 + line_len + 1 + chars + chars / 64 + 1, column = 0;
    if (total > LIMIT || total > out_len) return 0;
    uint8_t *at = out;
    memcpy(at, "-> ", 3);
    memcpy(at + 3, line, line_len);
    at += 3 + line_len;
    *at++ = '\n';
    for (size_t i = 0; i < body_len; i += 3) {
        size_t left = body_len - i;
        uint32_t bits = body[i] << 16 | (left > 1 ? body[i + 1] << 8 : 0) | (left > 2 ? body[i + 2] : 0);
        for (size_t k = 0; k <= 3 && k <= left; k++) {
            *at++ = BASE64[bits >> (18 - 6 * k) & 63];
            if (++column % 64 == 0) *at++ = '\n';
        }
    }
    *at++ = '\n';
    return at - out;
}

static uint32_t fold(uint32_t sum, uint8_t symbol)
{
    static const uint32_t FOLDS[32] = {
        0x00000000, 0x3b6a57b2, 0x26508e6d, 0x1d3ad9df, 0x1ea119fa, 0x25cb4e48, 0x38f19797, 0x039bc025,
        0x3d4233dd, 0x0628646f, 0x1b12bdb0, 0x2078ea02, 0x23e32a27, 0x18897d95, 0x05b3a44a, 0x3ed9f3f8,
        0x2a1462b3, 0x117e3501, 0x0c44ecde, 0x372ebb6c, 0x34b57b49, 0x0fdf2cfb, 0x12e5f524, 0x298fa296,
        0x1756516e, 0x2c3c06dc, 0x3106df03, 0x0a6c88b1, 0x09f74894, 0x329d1f26, 0x2fa7c6f9, 0x14cd914b};
    return (sum & 0x1ffffff) << 5 ^ symbol ^ FOLDS[sum >> 25];
}

static uint8_t lower(uint8_t c)
{
    return c >= 'A' && c <= 'Z' ? c + 32 : c;
}

// The checksum's state behind a human part.
static uint32_t fold_human(const uint8_t *human, size_t len)
{
    uint32_t sum = 1;
    for (size_t i = 0; i < len; i++) sum = fold(sum, lower(human[i]) >> 5);
    sum = fold(sum, 0);
    for (size_t i = 0; i < len; i++) sum = fold(sum, human[i] & 31);
    return sum;
}

static int is_name_byte(uint8_t c)
{
    return (c >= 'a' && c <= 'z') || (c >= '0' && c <= '9') || c == '+' || c == '-' || c == '.' || c == '_';
}

// Eight symbols or fewer as a number of 40 bits, the first the highest, by their values or characters.
static uint64_t word_of(const uint8_t *text, size_t len, const uint8_t *values)
{
    uint64_t word = 0;
    for (size_t i = 0; i < len; i++) word = word << 5 | values[text[i]];
    return word << 5 * (8 - len);
}

// A recipient, or an identity in upper case: its name, and its payload's length and one more, 0 where it is refused.
size_t plain_read_text(int upper, const uint8_t *text, size_t len, uint8_t *name, size_t *name_len, uint8_t *out, size_t out_len)
{
    const char *before = upper ? "AGE-PLUGIN-" : "age1", *behind = upper ? "-" : "";
    size_t before_len = strlen(before), behind_len = strlen(behind), around = before_len + behind_len;
    const uint8_t *one = memrchr(text, '1', len), *values = upper ? capital_of : symbol_of;
    size_t human = one - text;
    if (len > LONGEST || !one || len - human < 7 || human <= around || human - around > 32) return 0;
    if (memcmp(text, before, before_len) || memcmp(one - behind_len, behind, behind_len)) return 0;
    for (size_t i = 0; i < human - around; i++) {
        uint8_t c = text[before_len + i];
        if (upper ? c >= 'a' && c <= 'z' : c >= 'A' && c <= 'Z') return 0;
        name[i] = lower(c);
        if (!is_name_byte(name[i])) return 0;
    }
    uint32_t sum = fold_human(text, human), seen = 0;
    for (const uint8_t *at = one + 1; at < text + len; at++) {
        seen |= values[*at];
        sum = fold(sum, values[*at]);
    }
    size_t symbols = len - human - 7, bits = symbols * 5;
    if (seen >= NONE || sum != 1 || bits % 8 > 4 || bits / 8 > out_len) return 0;
    const uint8_t *at = one + 1, *end = at + symbols;
    uint64_t rest = word_of(end - symbols % 8, symbols % 8, values);
    if (rest << (24 + symbols % 8 * 5 / 8 * 8)) return 0;
    for (; end - at >= 8; at += 8) {
        uint64_t word = word_of(at, 8, values);
        for (int i = 32; i >= 0; i -= 8) *out++ = word >> i;
    }
    for (size_t i = 0; i < symbols % 8 * 5 / 8; i++) *out++ = rest >> (32 - 8 * i);
    *name_len = human - around;
    return 1 + bits / 8;
}

// Symbols of a number of 40 bits as characters, folded in.
static uint32_t put_symbols(uint64_t word, size_t count, const char *characters, uint32_t sum, uint8_t *out)
{
    for (size_t i = 0; i < count; i++) {
        uint8_t v = word >> (35 - 5 * i) & 31;
        sum = fold(sum, v);
        out[i] = characters[v];
    }
    return sum;
}

// The text of a name and a payload, its length, 0 where it is refused.
size_t plain_write_text(int upper, const uint8_t *name, size_t name_len, const uint8_t *payload, size_t payload_len, uint8_t *out, size_t out_len)
{
    const char *before = upper ? "AGE-PLUGIN-" : "age1", *behind = upper ? "-" : "", *characters = upper ? CAPITALS : BECH32;
    size_t before_len = strlen(before), behind_len = strlen(behind), human = before_len + name_len + behind_len;
    if (!name_len || name_len > 32 || payload_len > LONGEST) return 0;
    size_t total = human + 1 + (payload_len * 8 + 4) / 5 + 6;
    if (total > LONGEST || total > out_len) return 0;
    for (size_t i = 0; i < name_len; i++)
        if (!is_name_byte(name[i])) return 0;
    memcpy(out, before, before_len);
    for (size_t i = 0; i < name_len; i++) out[before_len + i] = upper && name[i] >= 'a' && name[i] <= 'z' ? name[i] - 32 : name[i];
    memcpy(out + before_len + name_len, behind, behind_len);
    uint32_t sum = fold_human(out, human);
    uint8_t *at = out + human;
    *at++ = '1';
    for (; payload_len >= 5; payload_len -= 5, payload += 5, at += 8) {
        uint64_t word = 0;
        for (int i = 0; i < 5; i++) word = word << 8 | payload[i];
        sum = put_symbols(word, 8, characters, sum, at);
    }
    uint64_t rest = 0;
    for (size_t i = 0; i < payload_len; i++) rest |= (uint64_t)payload[i] << (32 - 8 * i);
    sum = put_symbols(rest, (payload_len * 8 + 4) / 5, characters, sum, at);
    at += (payload_len * 8 + 4) / 5;
    for (int i = 0; i < 6; i++) sum = fold(sum, 0);
    for (int i = 0; i < 6; i++) at[i] = characters[(sum ^ 1) >> (25 - 5 * i) & 31];
    return total;
}

// Whether the text is Bech32, in one case, its payload whole bytes, and bears the session's name between the two texts.
static int is_bech32(const uint8_t *text, size_t len, const char *before, const char *behind, int upper)
{
    size_t before_len = strlen(before), behind_len = strlen(behind), human = before_len + session.name_len + behind_len;
    uint8_t symbol = 0;
    if (len < human + 7 || memcmp(text, before, before_len) || text[human] != '1') return 0;
    for (size_t i = 0; i < session.name_len; i++) {
        uint8_t c = session.name[i];
        if (text[before_len + i] != (upper && c >= 'a' && c <= 'z' ? c - 32 : c)) return 0;
    }
    if (memcmp(text + human - behind_len, behind, behind_len)) return 0;
    uint32_t sum = fold_human(text, human);
    for (size_t i = human + 1; i < len; i++) {
        uint8_t v = (upper ? capital_of : symbol_of)[text[i]];
        if (v == NONE) return 0;
        sum = fold(sum, v);
        if (i == len - 7) symbol = v;
    }
    size_t rest = (len - human - 7) * 5 % 8;
    return sum == 1 && rest < 5 && !(symbol & ((1 << rest) - 1));
}

static int note(struct table *t, size_t index, const uint8_t *line, size_t line_len, const uint8_t *body, size_t body_len)
{
    size_t len = line_len + body_len;
    if (t->count == t->most || len > sizeof t->payloads - t->used) return 0;
    memcpy(t->payloads + t->used, line, line_len);
    memcpy(t->payloads + t->used + line_len, body, body_len);
    t->entries[t->count].start = t->used;
    t->entries[t->count].len = len;
    t->entries[t->count++].index = index;
    t->used += len;
    return 1;
}

static int is(const uint8_t *word, size_t len, const char *name)
{
    return len == strlen(name) && !memcmp(word, name, len);
}

// Whether a header stanza's index does not fall; whether a returned stanza's names a file key that may get one more.
static int may_have(const struct table *t, uint64_t index)
{
    size_t of_file = 0;
    if (t == &session.headers) return !t->count || index >= t->entries[t->count - 1].index;
    for (size_t i = 0; i < t->count; i++) of_file += t->entries[i].index == index;
    return index < session.keys.count && of_file < session.recipients.count + session.identities.count;
}

// An index, a tag and more: what is behind the index is kept with its LF, and the body.
static int note_stanza(struct table *t, const uint8_t *from, const struct stanza *s)
{
    const uint8_t *at = from, *end = s->line + s->line_len;
    uint64_t index = 0;
    for (; at < end && *at >= '0' && *at <= '9' && at - from < 10; at++) index = index * 10 + *at - '0';
    if (at == from || (*from == '0' && at - from > 1) || index > UINT32_MAX || end - at < 2 || *at != ' ') return 0;
    return may_have(t, index) && note(t, index, at + 1, end - at, s->body, s->body_len);
}

// Whether no entry has this text.
static int is_new(const struct table *t, const uint8_t *text, size_t len)
{
    for (size_t i = 0; i < t->count; i++)
        if (t->entries[i].len == len && !memcmp(t->payloads + t->entries[i].start, text, len)) return 0;
    return 1;
}

// A command of phase one; recipient-stanza is identity-v1's. A text that is not the plugin's is refused: none such is measured.
static int take_one(const struct stanza *s)
{
    const uint8_t *end = s->line + s->line_len, *space = memchr(s->line, ' ', s->line_len), *at = space ? space + 1 : end;
    size_t word = (space ? space : end) - s->line, rest = end - at;
    if (is(s->line, word, "add-recipient"))
        return !s->body_len && is_new(&session.recipients, at, rest) && is_bech32(at, rest, "age1", "", 0) &&
            note(&session.recipients, 0, at, rest, s->body, 0);
    if (is(s->line, word, "add-identity"))
        return !s->body_len && is_bech32(at, rest, "AGE-PLUGIN-", "-", 1) && note(&session.identities, 0, at, rest, s->body, 0);
    if (is(s->line, word, "wrap-file-key")) return !rest && s->body_len == 16 && note(&session.keys, 0, at, 0, s->body, 16);
    if (is(s->line, word, "recipient-stanza")) return note_stanza(&session.headers, at, s);
    if (!is(s->line, word, "done")) return 1;
    session.phase = 2;
    return !rest && !s->body_len;
}

// At the plugin end msg is measured and no other command.
size_t plain_send(const uint8_t *line, size_t line_len, const uint8_t *body, size_t body_len, uint8_t *out, size_t out_len)
{
    struct stanza s;
    if (session.awaits || session.phase != (session.client ? 1 : 2)) return 0;
    size_t n = write_stanza(line, line_len, body, body_len, out, out_len);
    if (session.client) return n && read_stanza(out, n, &s) && take_one(&s) ? n : 0;
    session.awaits = n && is(line, line_len, "msg");
    return session.awaits ? n : 0;
}

// At the client end recipient-stanza and unknown commands are measured and no others.
size_t plain_receive(const uint8_t *text, size_t len, uint8_t *out, size_t out_len)
{
    struct stanza s;
    if (session.phase != (session.client ? 2 : 1) || !read_stanza(text, len, &s)) return 0;
    if (!session.client) return take_one(&s) ? s.taken : 0;
    const uint8_t *space = memchr(s.line, ' ', s.line_len);
    int known = space && is(s.line, space - s.line, "recipient-stanza");
    if (known && !note_stanza(&session.returned, space + 1, &s)) return 0;
    const char *answer = known ? "ok" : "unsupported";
    return write_stanza((const uint8_t *)answer, strlen(answer), s.body, 0, out, out_len) ? s.taken : 0;
}

// The response to msg.
size_t plain_response(const uint8_t *text, size_t len)
{
    struct stanza s;
    if (!session.awaits || !read_stanza(text, len, &s) || s.body_len) return 0;
    if (!is(s.line, s.line_len, "ok") && !is(s.line, s.line_len, "fail")) return 0;
    session.awaits = 0;
    return s.taken;
}
