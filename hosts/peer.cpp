/*
 * peer: puts the same random vectors through the library and through IT++'s exhaustive max-log demodulator, and holds every soft value of
 * the one to the other's. IT++ is the one detector here that nobody of this project wrote.
 *
 * What is compared. The clip and the share are at their ends, so that no vector is stopped and no value clipped; both are checked, and not
 * only hoped for. Then the library's value is the least metric with the bit 1, less the least with it 0, less the prior. IT++ gives
 * log P(0) - log P(1) with the prior in it, so the prior is subtracted here. Its points are scaled to unit energy: its H is R times what
 * undoes that, and with a noise variance of 1 its exponent is our distance.
 *
 * IT++'s rounding. It rounds each label's exponent to steps of 2^-Dint1, up to QLLR_MAX = 2^27 - 1 of them. Our metrics are whole numbers,
 * and so Dint1 = 0 is the sharpest choice: a whole number is rounded to itself, provided that the error of the doubles before that is below
 * one half. That error is bounded for each vector (see `error_of_doubles`) and with it the difference that is allowed: as it turns out, 0.
 *
 * ND_UQAM has square constellations only. For Q = 1 it is ND_UPSK of two points, with the same demodulator (both are a Modulator_NCD).
 * With labels of up to three bits IT++ 4.3.1 reads behind its array of exponents, as valgrind says; what it makes of that it overwrites.
 *
 * Exit status: 0 if all values agree, 1 if something differs or is not as it should be, 2 for arguments, of which it takes none.
 */
#include <algorithm>
#include <cinttypes>
#include <cmath>
#include <complex>
#include <cstdint>
#include <cstdio>
#include <cstdlib>
#include <ctime>
#include <exception>
#include <limits>
#include <memory>
#include <random>
#include <stdexcept>
#include <string>
#include <vector>

#include <itpp/comm/modulator_nd.h>

#include "geckoneedle.h"

namespace {

const uint32_t OPENING = 1;      /* records have no W, as no vector is stopped */
const int32_t CLIP = 16777215;   /* the largest C that a record may have */
const int32_t SHARE = 17043520;  /* the largest D */
const int32_t DIAGONAL_MAX = 2047;
const int32_t RECEIVED_MAX = 131071;
const int32_t PRIOR_MAX = 1048575;
const int MOST_BITS = 12;        /* of a label: 4,096 labels */
const size_t IN_RECORD = 64;     /* vectors of a record */
const size_t RECORDS = 32;       /* records for each M and Q */
const int TURNS = 5;             /* of measuring; the least time counts */

[[noreturn]] void fail(const std::string &what)
{
    throw std::runtime_error(what);
}

/* M streams of Q bits each. */
struct Shape {
    int streams;
    int width;

    int bits() const { return streams * width; }
    /* The bits of the real axis; the imaginary one has as many, but none where Q is 1. */
    int axis_bits() const { return (width + 1) / 2; }
    /* The largest amplitude of an axis. */
    int32_t top() const { return (1 << axis_bits()) - 1; }

    std::string name() const { return "M = " + std::to_string(streams) + ", Q = " + std::to_string(width); }
};

/* A complex whole number. */
struct Entry {
    int32_t re;
    int32_t im;
};

/* A vector of a record: R by rows, with zeros left of its diagonal, y, and the priors in label order. */
struct Reception {
    std::vector<Entry> r;
    std::vector<Entry> y;
    std::vector<int32_t> priors;
};

/* ---- IEEE 802.11's mapping, as document 01 has it ---- */

/* The amplitude of an axis label. By rising amplitude, in steps of 2, the labels are in reflected Gray order: the i-th is i ^ (i >> 1). */
int32_t amplitude(int axis_bits, int label)
{
    int index = 0;
    while ((index ^ (index >> 1)) != label) {
        index++;
    }
    return 2 * index - ((1 << axis_bits) - 1);
}

/* The point of a symbol label: its first half of bits is the real amplitude, its second half the imaginary; Q = 1 has no imaginary one. */
Entry point(const Shape &shape, int label)
{
    int axis_bits = shape.axis_bits();
    if (shape.width == 1) {
        return Entry{amplitude(axis_bits, label), 0};
    }
    return Entry{amplitude(axis_bits, label >> axis_bits), amplitude(axis_bits, label & ((1 << axis_bits) - 1))};
}

/* A bit of a number of so many bits, the first one highest. */
int bit_of(uint32_t number, int bits, int index)
{
    return (number >> (bits - 1 - index)) & 1;
}

/* ---- How IT++'s bits stand to these ---- */

/* In every symbol IT++'s bit i is 802.11's bit place[i], inverted where is_inverted[i]; IT++'s points times `scale` are the whole ones. */
struct Relation {
    double scale;
    std::vector<int> place;
    std::vector<bool> is_inverted;
};

/* IT++'s point of one of its labels, from the two tables that its demodulator goes by. */
std::complex<double> peer_point(const itpp::Modulator_NCD &peer, int stream, int label)
{
    return peer.get_symbols()(stream)(peer.get_bits2symbols()(stream)(label));
}

/* Whether a scaled point is this one, but for a few roundings. */
bool is_at(std::complex<double> scaled, const Entry &whole)
{
    return std::abs(scaled - std::complex<double>(whole.re, whole.im)) < 1e-13;
}

/* The 802.11 label that has a point of IT++'s, scaled. */
int label_at(const Shape &shape, std::complex<double> scaled)
{
    for (int label = 0; label < 1 << shape.width; label++) {
        if (is_at(scaled, point(shape, label))) {
            return label;
        }
    }
    fail(shape.name() + ": a point of IT++'s constellation is none of IEEE 802.11's");
}

/* The 802.11 label that a relation gives to a label of IT++'s. */
int related(const Shape &shape, const Relation &relation, int peer_label)
{
    int label = 0;
    for (int bit = 0; bit < shape.width; bit++) {
        int value = bit_of(peer_label, shape.width, bit) ^ (relation.is_inverted[bit] ? 1 : 0);
        label |= value << (shape.width - 1 - relation.place[bit]);
    }
    return label;
}

/* Every label of every stream has to lie where the relation says. */
void check_relation(const Shape &shape, const itpp::Modulator_NCD &peer, const Relation &relation)
{
    for (int stream = 0; stream < shape.streams; stream++) {
        for (int label = 0; label < 1 << shape.width; label++) {
            Entry whole = point(shape, related(shape, relation, label));
            if (!is_at(peer_point(peer, stream, label) * relation.scale, whole)) {
                fail(shape.name() + ": no order and inversion of bits leads from IT++'s label " + std::to_string(label) + " to IEEE 802.11's");
            }
        }
    }
}

/*
 * Finds the relation in IT++'s tables. If there is one at all, then the 802.11 label of IT++'s label 0 has a 1 just where a bit is inverted, and
 * a single 1 in IT++'s label changes a single bit of it. Whether there is one is decided by the check of all labels.
 */
Relation find_relation(const Shape &shape, const itpp::Modulator_NCD &peer)
{
    double largest = 0;
    for (int label = 0; label < 1 << shape.width; label++) {
        largest = std::max(largest, peer_point(peer, 0, label).real());
    }
    Relation relation{shape.top() / largest, std::vector<int>(shape.width, 0), std::vector<bool>(shape.width, false)};
    int inverted = label_at(shape, peer_point(peer, 0, 0) * relation.scale);
    for (int bit = 0; bit < shape.width; bit++) {
        int changed = inverted ^ label_at(shape, peer_point(peer, 0, 1 << (shape.width - 1 - bit)) * relation.scale);
        while (relation.place[bit] < shape.width - 1 && bit_of(changed, shape.width, relation.place[bit]) == 0) {
            relation.place[bit]++;
        }
        relation.is_inverted[bit] = bit_of(inverted, shape.width, relation.place[bit]) == 1;
    }
    check_relation(shape, peer, relation);
    return relation;
}

void print_relation(const Shape &shape, const Relation &relation)
{
    std::printf("- Q = %d: ", shape.width);
    for (int bit = 0; bit < shape.width; bit++) {
        std::printf("%s%s%d", bit == 0 ? "" : ", ", relation.is_inverted[bit] ? "not " : "", relation.place[bit] + 1);
    }
    std::printf("; points times %.6f\n", relation.scale);
}

/* IT++'s modulator, with the rounding that is said above: steps of 2^-0, and no table, since there is no logarithm of a sum. */
std::unique_ptr<itpp::Modulator_NCD> make_peer(const Shape &shape)
{
    std::unique_ptr<itpp::Modulator_NCD> peer;
    if (shape.width == 1) {
        peer.reset(new itpp::ND_UPSK(shape.streams, 2));
    } else {
        peer.reset(new itpp::ND_UQAM(shape.streams, 1 << shape.width));
    }
    peer->set_llrcalc(itpp::LLR_calc_unit(0, 0, 0));
    return peer;
}

/* ---- The vectors ---- */

/* A whole number from low to high. That some are drawn a little more often than others does not matter, and every machine draws the same. */
int32_t between(std::mt19937 &random, int32_t low, int32_t high)
{
    return low + static_cast<int32_t>(random() % (static_cast<uint32_t>(high - low) + 1));
}

Entry within(std::mt19937 &random, int32_t size)
{
    int32_t re = between(random, -size, size);
    return Entry{re, between(random, -size, size)};
}

/* How large the numbers of a vector may be. Where y is near, it is a sent point and noise of this size; else it is anything of this size. */
struct Sizes {
    int32_t entry;
    int32_t received;
    int32_t prior;
    bool is_near;
};

/*
 * The largest entries of R with which, if y is near, values come close to the clip and do not reach it, and no label comes to the end of IT++'s
 * range. A soft value is at most about the square of the step from the outermost point over the middle, top + 1, along a column of R; IT++'s
 * exponent is at most three times |R s| squared, and row i of R s is at most top times its parts. The factor is for noise and priors.
 */
int32_t near_entry(const Shape &shape)
{
    double step = shape.top() + 1.0;
    double clip = CLIP / (step * step * (2 * shape.streams - 1));
    double rows = 0;
    for (int after = 0; after < shape.streams; after++) {
        rows += (2.0 * after + 1) * (2.0 * after + 1);
    }
    double range = itpp::QLLR_MAX / (6.0 * shape.top() * shape.top() * rows);
    return std::min(DIAGONAL_MAX, static_cast<int32_t>(0.8 * std::sqrt(std::min(clip, range))));
}

/* The same where y is anything that a record may have: there a soft value is at most about twice the step along a column times y. */
int32_t far_entry(const Shape &shape)
{
    double step = shape.top() + 1.0;
    return std::max(1, static_cast<int32_t>(0.8 * CLIP / (2 * step * (2 * shape.streams - 1) * RECEIVED_MAX)));
}

/*
 * Four kinds by turns: small numbers, with many equal metrics; a sent point in noise with priors of the noise's weight; the same with weaker
 * entries and the strongest priors; any y with any priors.
 */
Sizes sizes(std::mt19937 &random, const Shape &shape, size_t kind)
{
    if (kind == 0) {
        return Sizes{3, 20, 20, false};
    }
    if (kind == 3) {
        return Sizes{far_entry(shape), RECEIVED_MAX, PRIOR_MAX, false};
    }
    int32_t most = near_entry(shape);
    int32_t entry = between(random, 1, kind == 1 ? most : std::max(1, most / 4));
    return Sizes{entry, entry / 4, kind == 1 ? std::min(PRIOR_MAX, entry * entry / 4) : PRIOR_MAX, true};
}

/* Adds to y what R makes of a random label. */
void send(std::mt19937 &random, const Shape &shape, Reception &reception)
{
    for (int column = 0; column < shape.streams; column++) {
        Entry sent = point(shape, between(random, 0, (1 << shape.width) - 1));
        for (int row = 0; row <= column; row++) {
            Entry entry = reception.r[row * shape.streams + column];
            reception.y[row].re += entry.re * sent.re - entry.im * sent.im;
            reception.y[row].im += entry.re * sent.im + entry.im * sent.re;
        }
    }
}

/* A vector. One prior of four is 0. */
Reception draw(std::mt19937 &random, const Shape &shape, size_t kind)
{
    Sizes size = sizes(random, shape, kind);
    Reception reception;
    for (int row = 0; row < shape.streams; row++) {
        for (int column = 0; column < shape.streams; column++) {
            Entry right = column > row ? within(random, size.entry) : Entry{0, 0};
            reception.r.push_back(column == row ? Entry{between(random, 1, size.entry), 0} : right);
        }
        reception.y.push_back(within(random, size.received));
    }
    if (size.is_near) {
        send(random, shape, reception);
    }
    for (int bit = 0; bit < shape.bits(); bit++) {
        reception.priors.push_back(between(random, 0, 3) == 0 ? 0 : between(random, -size.prior, size.prior));
    }
    return reception;
}

/* ---- IT++'s rounding ---- */

/* A bound of |2 Re(y* R s)| + |R s|^2 over all labels: of each label's exponent in IT++, which leaves out |y|^2. */
double reach(const Shape &shape, const Reception &reception)
{
    double sum = 0;
    for (int row = 0; row < shape.streams; row++) {
        double parts = 0;
        for (int column = row; column < shape.streams; column++) {
            Entry entry = reception.r[row * shape.streams + column];
            parts += std::abs(entry.re) + std::abs(entry.im);
        }
        double most = shape.top() * parts;
        sum += 2 * (std::abs(reception.y[row].re) + std::abs(reception.y[row].im)) * most + 2 * most * most;
    }
    return sum;
}

/*
 * How far IT++'s doubles may be from a label's exponent before it rounds. It goes through the labels one bit at a time, adding to H s and to
 * y* H s, so errors add up. A step's terms are at most twice the reach and have come through at most 23 roundings of 2^-53 each (scale, points,
 * products, sums), the sum through one: less than 2^6 roundings of the reach a step in all, with squares and the last quotient. 2^-46 is twice that.
 */
double error_of_doubles(const Shape &shape, const Reception &reception)
{
    return std::ldexp(reach(shape, reception), shape.bits() - 46);
}

/*
 * How far IT++'s soft value may be from the exact one. Each label's metric is a whole number, and rounds to one that is at most the error, rounded,
 * away; a soft value is the difference of two least ones. Priors are whole numbers and are not rounded.
 */
double allowed_difference(const Shape &shape, const Reception &reception)
{
    return 2 * std::floor(error_of_doubles(shape, reception) + 0.5);
}

/* No label may come to the end of IT++'s range: there it would be cut. */
void check_range(const Shape &shape, const Reception &reception)
{
    double most = reach(shape, reception);
    for (int32_t prior : reception.priors) {
        most += std::abs(prior);
    }
    if (most + 1 >= itpp::QLLR_MAX) {
        fail(shape.name() + ": a vector is too large for IT++'s range");
    }
}

/* ---- The library ---- */

typedef std::vector<uint8_t> Bytes;

/* What the library says of a vector. */
struct Answer {
    uint32_t nodes;
    uint32_t label;
    std::vector<int32_t> soft;
};

void append(std::vector<int32_t> &numbers, const Shape &shape, const Reception &reception)
{
    for (int row = 0; row < shape.streams; row++) {
        numbers.push_back(reception.r[row * shape.streams + row].re);
        for (int column = row + 1; column < shape.streams; column++) {
            Entry entry = reception.r[row * shape.streams + column];
            numbers.insert(numbers.end(), {entry.re, entry.im});
        }
    }
    for (Entry part : reception.y) {
        numbers.insert(numbers.end(), {part.re, part.im});
    }
    numbers.insert(numbers.end(), reception.priors.begin(), reception.priors.end());
}

/* The records of the vectors, IN_RECORD in each. */
std::vector<Bytes> make_records(const Shape &shape, const std::vector<Reception> &receptions)
{
    std::vector<Bytes> records;
    for (size_t first = 0; first < receptions.size(); first += IN_RECORD) {
        std::vector<int32_t> numbers = {shape.streams, shape.width, static_cast<int32_t>(IN_RECORD), CLIP, SHARE};
        for (size_t at = first; at < first + IN_RECORD; at++) {
            append(numbers, shape, receptions[at]);
        }
        Bytes record(GECKONEEDLE_RECORD_MAX);
        int64_t length = geckoneedle_write(OPENING, numbers.data(), numbers.size(), record.data(), record.size());
        if (length < 0) {
            fail(shape.name() + ": the library makes no record of the numbers, but refuses them by " + std::to_string(-length));
        }
        record.resize(static_cast<size_t>(length));
        records.push_back(record);
    }
    return records;
}

/* Detects all records, each into its reply, which is as long as any may be. Returns the clock's ticks. */
std::clock_t detect(const std::vector<Bytes> &records, std::vector<Bytes> &replies, std::vector<int64_t> &returned)
{
    std::clock_t start = std::clock();
    for (size_t at = 0; at < records.size(); at++) {
        returned[at] = geckoneedle_detect(records[at].data(), records[at].size(), replies[at].data(), replies[at].size());
    }
    return std::clock() - start;
}

/* The next number of a reply: groups of seven bits, least significant first, the high bit on all but the last. */
uint32_t next_number(const Bytes &reply, size_t &at)
{
    uint32_t number = 0;
    for (unsigned shift = 0; shift < 28 && at < reply.size(); shift += 7) {
        uint8_t group = reply[at++];
        number |= static_cast<uint32_t>(group & 127u) << shift;
        if (group < 128) {
            return number;
        }
    }
    fail("a reply of the library is broken");
}

/* n at least 0 is folded to 2n, n below 0 to -2n - 1. */
int32_t unfolded(uint32_t number)
{
    int32_t half = static_cast<int32_t>(number >> 1);
    return number % 2 == 0 ? half : -half - 1;
}

/* A vector's part of a reply, which has to be complete, with no value at the clip. */
Answer next_answer(const Shape &shape, const Bytes &reply, size_t &at)
{
    if (next_number(reply, at) != 0) {
        fail(shape.name() + ": a vector is stopped");
    }
    Answer answer;
    answer.nodes = next_number(reply, at);
    answer.label = next_number(reply, at);
    for (int bit = 0; bit < shape.bits(); bit++) {
        answer.soft.push_back(unfolded(next_number(reply, at)));
        if (std::abs(answer.soft.back()) >= CLIP) {
            fail(shape.name() + ": a soft value is at the clip");
        }
    }
    return answer;
}

/* What a reply says; its length is what the library returned. */
void append_answers(const Shape &shape, Bytes reply, int64_t returned, std::vector<Answer> &answers)
{
    if (returned < 0) {
        fail(shape.name() + ": the library refuses a record by " + std::to_string(-returned));
    }
    reply.resize(static_cast<size_t>(returned));
    size_t at = 4; /* behind the opening */
    uint32_t streams = next_number(reply, at), width = next_number(reply, at), vectors = next_number(reply, at);
    if (streams != static_cast<uint32_t>(shape.streams) || width != static_cast<uint32_t>(shape.width) || vectors != IN_RECORD) {
        fail(shape.name() + ": a reply has another M, Q or N");
    }
    for (size_t vector = 0; vector < IN_RECORD; vector++) {
        answers.push_back(next_answer(shape, reply, at));
    }
    if (at != reply.size()) {
        fail(shape.name() + ": a reply goes on behind its last value");
    }
}

/* ---- IT++ ---- */

/* A vector as IT++ takes it. */
struct Question {
    itpp::cmat h;
    itpp::cvec y;
    itpp::QLLRvec priors;
};

Question make_question(const Shape &shape, const Relation &relation, const Reception &reception)
{
    Question question{itpp::cmat(shape.streams, shape.streams), itpp::cvec(shape.streams), itpp::QLLRvec(shape.bits())};
    for (int row = 0; row < shape.streams; row++) {
        question.y(row) = std::complex<double>(reception.y[row].re, reception.y[row].im);
        for (int column = 0; column < shape.streams; column++) {
            Entry entry = reception.r[row * shape.streams + column];
            question.h(row, column) = std::complex<double>(entry.re * relation.scale, entry.im * relation.scale);
        }
        for (int bit = 0; bit < shape.width; bit++) {
            int32_t prior = reception.priors[row * shape.width + relation.place[bit]];
            question.priors(row * shape.width + bit) = relation.is_inverted[bit] ? -prior : prior;
        }
    }
    return question;
}

/* Demodulates all vectors, each with an H of its own. Returns the clock's ticks. */
std::clock_t demodulate(itpp::Modulator_NCD &peer, const std::vector<Question> &questions, std::vector<itpp::QLLRvec> &a_posteriori)
{
    std::clock_t start = std::clock();
    for (size_t at = 0; at < questions.size(); at++) {
        const Question &question = questions[at];
        peer.demodulate_soft_bits(question.y, question.h, 1.0, question.priors, a_posteriori[at], itpp::Modulator_ND::FULL_ENUM_MAXLOG);
    }
    return std::clock() - start;
}

/* The part of this that IT++ does for H, and would do once for several vectors with the same H. */
std::clock_t prepare(itpp::Modulator_NCD &peer, const std::vector<Question> &questions)
{
    std::clock_t start = std::clock();
    for (const Question &question : questions) {
        peer.init_soft_demodulator(question.h, 1.0);
    }
    return std::clock() - start;
}

/* ---- Both ---- */

/* The vectors of a shape, in both forms, and what both detectors say of each. */
struct Trial {
    Shape shape;
    Relation relation;
    std::vector<Reception> receptions;
    std::vector<Question> questions;
    std::vector<Answer> answers;
    std::vector<itpp::QLLRvec> a_posteriori;
};

/* CPU times of all vectors of a trial, in ticks of the clock. */
struct Times {
    std::clock_t library;
    std::clock_t peer;
    std::clock_t peer_for_h;
};

/* What came of a trial. */
struct Findings {
    int64_t nodes;      /* that the library walked */
    int64_t values;     /* soft values compared */
    int64_t largest;    /* the largest magnitude among the library's */
    int64_t difference; /* the largest difference */
    double allowed;     /* the largest difference that was allowed */
    double error;       /* the largest error of doubles that IT++ may have had */
    int64_t wrong;      /* values that differ by more than allowed */
    int64_t hard;       /* bits of the library's labels that go against the sign of IT++'s value */
};

Trial make_trial(const Shape &shape, const itpp::Modulator_NCD &peer)
{
    Trial trial{shape, find_relation(shape, peer), {}, {}, {}, {}};
    std::mt19937 random(static_cast<uint32_t>(100 * shape.streams + shape.width));
    for (size_t at = 0; at < RECORDS * IN_RECORD; at++) {
        trial.receptions.push_back(draw(random, shape, at % 4));
        check_range(shape, trial.receptions.back());
        trial.questions.push_back(make_question(shape, trial.relation, trial.receptions.back()));
    }
    trial.a_posteriori.resize(trial.questions.size());
    return trial;
}

/* Both detectors by turns on the same vectors; the answers are those of the last turn. */
Times run_both(Trial &trial, itpp::Modulator_NCD &peer)
{
    std::vector<Bytes> records = make_records(trial.shape, trial.receptions);
    std::vector<Bytes> replies(records.size(), Bytes(GECKONEEDLE_REPLY_MAX));
    std::vector<int64_t> returned(records.size());
    const std::clock_t none = std::numeric_limits<std::clock_t>::max();
    Times least{none, none, none};
    for (int turn = 0; turn < TURNS; turn++) {
        least.library = std::min(least.library, detect(records, replies, returned));
        least.peer = std::min(least.peer, demodulate(peer, trial.questions, trial.a_posteriori));
        least.peer_for_h = std::min(least.peer_for_h, prepare(peer, trial.questions));
    }
    for (size_t at = 0; at < records.size(); at++) {
        append_answers(trial.shape, replies[at], returned[at], trial.answers);
    }
    return least;
}

/* Holds the values and the label of one vector to IT++'s. */
void compare(const Trial &trial, size_t vector, double allowed, Findings &findings)
{
    const Answer &answer = trial.answers[vector];
    int width = trial.shape.width, bits = trial.shape.bits();
    for (int at = 0; at < bits; at++) {
        int bit = at % width, index = at - bit + trial.relation.place[bit];
        int64_t sign = trial.relation.is_inverted[bit] ? -1 : 1;
        int64_t whole = sign * trial.a_posteriori[vector](at), prior = sign * trial.questions[vector].priors(at);
        int64_t soft = answer.soft[index], difference = std::abs(soft - (whole - prior));
        findings.values++;
        findings.largest = std::max(findings.largest, std::abs(soft));
        findings.difference = std::max(findings.difference, difference);
        findings.wrong += difference > allowed;
        /* Where a bit's value is not 0, all best labels have the same bit, and so has the library's label. */
        bool is_one = bit_of(answer.label, bits, index) == 1;
        findings.hard += (whole > allowed && is_one) || (whole < -allowed && !is_one);
    }
}

Findings compare_all(const Trial &trial)
{
    Findings findings = {};
    for (size_t vector = 0; vector < trial.receptions.size(); vector++) {
        const Reception &reception = trial.receptions[vector];
        double allowed = allowed_difference(trial.shape, reception);
        findings.nodes += trial.answers[vector].nodes;
        findings.allowed = std::max(findings.allowed, allowed);
        findings.error = std::max(findings.error, error_of_doubles(trial.shape, reception));
        compare(trial, vector, allowed, findings);
    }
    return findings;
}

void print_row(const Trial &trial, const Findings &findings, const Times &times)
{
    double vectors = static_cast<double>(trial.receptions.size());
    double microseconds = 1e6 / CLOCKS_PER_SEC / vectors;
    std::printf("| %d | %d | %.0f | %" PRId64 " | %" PRId64 " | %" PRId64 " | %.0f (%.5f) ", trial.shape.streams, trial.shape.width, vectors,
                findings.values, findings.largest, findings.difference, findings.allowed, findings.error);
    std::printf("| %.1f | %d | %.2f | %.2f | %.2f |\n", static_cast<double>(findings.nodes) / vectors, 1 << trial.shape.bits(),
                times.library * microseconds, times.peer * microseconds, times.peer_for_h * microseconds);
    std::fflush(stdout);
}

/* All vectors of a shape: draws them, runs both, compares, prints a row. Returns whether all agree. */
bool run(const Shape &shape)
{
    std::unique_ptr<itpp::Modulator_NCD> peer = make_peer(shape);
    Trial trial = make_trial(shape, *peer);
    Times times = run_both(trial, *peer);
    Findings findings = compare_all(trial);
    print_row(trial, findings, times);
    if (findings.wrong != 0 || findings.hard != 0) {
        std::fprintf(stderr, "peer: %s: %" PRId64 " of %" PRId64 " soft values differ by more than IT++ rounds, and %" PRId64 " bits of labels\n",
                     shape.name().c_str(), findings.wrong, findings.values, findings.hard);
    }
    return findings.wrong == 0 && findings.hard == 0;
}

void print_head()
{
    std::printf("IT++'s bits of a symbol, each by the IEEE 802.11 bit that it is, found from IT++'s tables and checked at every label:\n\n");
    for (int width : {1, 2, 4, 6, 8}) {
        Shape shape{1, width};
        print_relation(shape, find_relation(shape, *make_peer(shape)));
    }
    std::printf("\nBehind the bound of the difference stands how far IT++'s doubles may be off before it rounds them to whole numbers. CPU times in\n"
                "one process, by turns, the least of %d. The library: one call for %zu vectors, from record to reply. IT++: one call for each\n"
                "vector, with an H of its own; the last column is the part of it that is for H alone.\n\n",
                TURNS, IN_RECORD);
    std::printf("| M | Q | vectors | soft values | largest of them | largest difference | bound | nodes walked a vector | labels "
                "| library: µs a vector | IT++: µs a vector | for H |\n|---|---|---|---|---|---|---|---|---|---|---|---|\n");
}

/* All widths, and all M with M x Q at most 12. Returns whether all agree. */
bool run_all()
{
    print_head();
    bool is_agreed = true;
    for (int width : {1, 2, 4, 6, 8}) {
        for (int streams = 1; streams <= 4 && streams * width <= MOST_BITS; streams++) {
            is_agreed = run(Shape{streams, width}) && is_agreed;
        }
    }
    return is_agreed;
}

} // namespace

int main(int count, char **)
{
    if (count > 1) {
        std::fprintf(stderr, "usage: peer\n");
        return 2;
    }
    try {
        bool is_agreed = run_all();
        if (std::fflush(stdout) != 0 || std::ferror(stdout)) {
            fail("the output cannot be written");
        }
        return is_agreed ? 0 : 1;
    } catch (const std::exception &error) {
        std::fprintf(stderr, "peer: %s\n", error.what());
        return 1;
    }
}
