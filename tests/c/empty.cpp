// Empty vectors, whose data() is null, for each slice of each call: the answer and all other memory are the same as with
// an empty slice at a valid address.
#include "isolated.h"

#include <cstdint>
#include <cstdio>
#include <cstdlib>
#include <string>
#include <vector>

namespace {

constexpr std::size_t claw = 4;

[[noreturn]] void stop(const char *what) {
    std::printf("not so: %s\n", what);
    std::exit(1);
}

// What is lent to one call. A slice that is empty is lent with a null pointer, or at the address of a valid element.
struct Lent {
    std::vector<std::uint64_t> table;
    std::vector<std::uint8_t> bytes;
    std::vector<std::uint16_t> degrees, output, work;
    bool null;
    std::uint64_t valid_number = 7;
    std::uint8_t valid_byte = 7;
    std::uint16_t valid_entry = 7;

    template <class Element> Element *at(std::vector<Element> &slice, Element &valid) {
        if (slice.empty() && slice.data() != nullptr) stop("an empty vector's data() is null");
        return slice.empty() && !null ? &valid : slice.data();
    }
    std::uint64_t *at(std::vector<std::uint64_t> &slice) { return at(slice, valid_number); }
    std::uint8_t *at(std::vector<std::uint8_t> &slice) { return at(slice, valid_byte); }
    std::uint16_t *at(std::vector<std::uint16_t> &slice) { return at(slice, valid_entry); }
    // The work slice is left out: its contents are open where a call is accepted.
    bool same(const Lent &other) const {
        return table == other.table && degrees == other.degrees && bytes == other.bytes && output == other.output &&
               valid_number == other.valid_number && valid_byte == other.valid_byte && valid_entry == other.valid_entry;
    }
};

// The claw, with those slices empty whose bit is set in `empty`: table, bytes, output, work, degrees.
Lent lend(unsigned empty, bool null) {
    Lent it;
    it.null = null;
    if (!(empty & 1)) it.table = {14, 1, 1, 1};
    if (!(empty & 2)) it.bytes.assign(claw, 0);
    if (!(empty & 4)) it.output.assign(ISOLATED_RECORD(claw), 9);
    if (!(empty & 8)) it.work.assign(ISOLATED_WORK(claw), 9);
    if (!(empty & 16)) it.degrees = {3, 1, 1, 1};
    return it;
}

isolated_page_answer page(Lent &it, std::size_t n, std::uint32_t c, std::uint32_t budget) {
    return isolated_page(it.at(it.table), it.table.size(), it.at(it.degrees), it.degrees.size(), it.at(it.bytes),
                         it.bytes.size(), it.at(it.output), it.output.size(), it.at(it.work), it.work.size(), n,
                         ISOLATED_MAX, ISOLATED_MAXIMAL_ISOLATED, c, budget);
}

isolated_set_answer query(Lent &it, std::size_t n, std::uint32_t c) {
    return isolated_set_query(it.at(it.table), it.table.size(), it.at(it.degrees), it.degrees.size(), it.at(it.bytes),
                              it.bytes.size(), it.at(it.work), it.work.size(), n, ISOLATED_MAX,
                              ISOLATED_MAXIMAL_ISOLATED, c);
}

using Edit = isolated_edit_answer (*)(std::uint64_t *, std::size_t, std::uint16_t *, std::size_t, std::size_t,
                                      std::size_t, std::size_t);

isolated_edit_answer edit(Edit call, Lent &it, std::size_t n) {
    return call(it.at(it.table), it.table.size(), it.at(it.degrees), it.degrees.size(), n, 1, 2);
}

std::uint32_t degrees(Lent &it, std::size_t n) {
    return isolated_degrees(it.at(it.table), it.table.size(), it.at(it.degrees), it.degrees.size(), n);
}

std::uint32_t pack(Lent &it, std::size_t n) {
    return isolated_pack(it.at(it.bytes), it.bytes.size(), it.at(it.table), it.table.size(), n);
}

bool same(const isolated_page_answer &a, const isolated_page_answer &b) {
    return a.refusal == b.refusal && a.stop == b.stop && a.groups == b.groups && a.steps == b.steps &&
           a.used == b.used && a.wanted == b.wanted;
}

// Every choice of empty slices, with no vertices and with the claw's, accepted or refused by its factor.
void pages_and_queries() {
    for (unsigned empty = 0; empty < 32; empty++) {
        for (std::size_t n : {std::size_t(0), claw}) {
            for (std::uint32_t c : {0u, 2u}) {
                for (std::uint32_t budget : {0u, 1000u}) {
                    Lent null = lend(empty, true), valid = lend(empty, false);
                    if (!same(page(null, n, c, budget), page(valid, n, c, budget)) || !null.same(valid)) {
                        stop("a page takes null as an empty slice");
                    }
                }
                Lent null = lend(empty, true), valid = lend(empty, false);
                const isolated_set_answer a = query(null, n, c), b = query(valid, n, c);
                if (a.refusal != b.refusal || a.yes != b.yes || !null.same(valid)) {
                    stop("a set query takes null as an empty slice");
                }
            }
        }
    }
}

// Every choice of empty slices, with no vertices and with the claw's.
void edits_and_counts() {
    for (unsigned empty = 0; empty < 32; empty++) {
        for (std::size_t n : {std::size_t(0), claw}) {
            for (Edit call : {isolated_join, isolated_part}) {
                Lent null = lend(empty, true), valid = lend(empty, false);
                const isolated_edit_answer a = edit(call, null, n), b = edit(call, valid, n);
                if (a.refusal != b.refusal || a.unchanged != b.unchanged || !null.same(valid)) {
                    stop("an edit takes null as an empty slice");
                }
            }
            Lent null = lend(empty, true), valid = lend(empty, false);
            if (degrees(null, n) != degrees(valid, n) || !null.same(valid)) {
                stop("a count of the degrees takes null as an empty slice");
            }
        }
    }
}

// Every choice of empty slices, with no vertices and with two: the table of bytes is that of an edge, packed into two
// numbers.
void packings() {
    for (unsigned empty = 0; empty < 4; empty++) {
        for (std::size_t n : {std::size_t(0), std::size_t(2)}) {
            Lent null = lend(31, true), valid = lend(31, false);
            for (Lent *it : {&null, &valid}) {
                if (!(empty & 1)) it->bytes = {0, 1, 1, 0};
                if (!(empty & 2)) it->table.assign(2, 9);
            }
            const std::uint32_t refusal = pack(null, n);
            if (refusal != pack(valid, n) || !null.same(valid)) stop("a packing takes null as an empty slice");
            const bool fits = n == 0 ? empty == 3 : empty == 0;
            if (refusal != (fits ? ISOLATED_REFUSED_NOT : ISOLATED_REFUSED_TABLE_LENGTH)) {
                stop("a packing is refused for the slice it lacks");
            }
        }
    }
}

// What these calls have to answer.
void answers() {
    Lent nothing = lend(31, true);
    const isolated_page_answer finished = page(nothing, 0, 1, 0);
    if (finished.refusal != 0 || finished.stop != ISOLATED_STOP_FINISHED) stop("no vertices and no slices: finished");
    if (query(nothing, 0, 1).refusal != 0 || query(nothing, 0, 1).yes != 0) stop("no vertices and no slices: no");
    if (page(nothing, 0, 0, 0).refusal != ISOLATED_REFUSED_FACTOR) stop("no vertices and factor 0: refused");
    if (degrees(nothing, 0) != ISOLATED_REFUSED_NOT) stop("no vertices have no degrees");
    for (Edit call : {isolated_join, isolated_part}) {
        if (edit(call, nothing, 0).refusal != ISOLATED_REFUSED_NO_VERTEX) stop("no vertices and no pair: refused");
    }

    Lent no_output = lend(4, true);
    const isolated_page_answer full = page(no_output, claw, 2, 1000);
    if (full.stop != ISOLATED_STOP_FULL || full.wanted != 4 || full.steps != 7) {
        stop("no output: full at the first group");
    }

    const std::uint32_t refusals[] = {ISOLATED_REFUSED_TABLE_LENGTH, ISOLATED_REFUSED_LENGTH, ISOLATED_REFUSED_NOT,
                                      ISOLATED_REFUSED_WORK, ISOLATED_REFUSED_DEGREES};
    for (unsigned slice = 0; slice < 5; slice++) {
        Lent it = lend(1u << slice, true);
        if (page(it, claw, 2, 0).refusal != refusals[slice]) stop("a page is refused for the slice it lacks");
        if (query(it, claw, 2).refusal != refusals[slice]) stop("a set query is refused for the slice it lacks");
    }
    for (unsigned slice : {0u, 4u}) {
        Lent it = lend(1u << slice, true);
        if (edit(isolated_join, it, claw).refusal != refusals[slice]) stop("an edit is refused for the slice it lacks");
        if (edit(isolated_part, it, claw).refusal != refusals[slice]) stop("an edit is refused for the slice it lacks");
        if (degrees(it, claw) != refusals[slice]) stop("a count is refused for the slice it lacks");
    }
}

void reads() {
    const struct {
        std::string text;
        std::size_t table;
        std::uint32_t refusal, vertices;
        std::size_t line;
    } cases[] = {
        {"", 0, ISOLATED_REFUSED_NO_P_LINE, 0, 1},
        {"", 4, ISOLATED_REFUSED_NO_P_LINE, 0, 1},
        {"p edge 0 0\n", 0, ISOLATED_REFUSED_NOT, 0, 0},
        {"p edge 0 1\n", 0, ISOLATED_REFUSED_EDGE_COUNT, 0, 2},
        {"p edge 1 0\n", 0, ISOLATED_REFUSED_TABLE_SHORT, 0, 1},
        {"p edge 2 1\ne 1 2\n", 4, ISOLATED_REFUSED_NOT, 2, 0},
    };
    for (const auto &one : cases) {
        const std::vector<std::uint8_t> text(one.text.begin(), one.text.end());
        std::vector<std::uint8_t> table(one.table, 9);
        const isolated_text_answer answer = isolated_read_text(text.data(), text.size(), table.data(), table.size());
        if (answer.refusal != one.refusal || answer.vertices != one.vertices || answer.line != one.line) {
            stop("the reader takes null as an empty slice");
        }
    }
}

} // namespace

int main() {
    pages_and_queries();
    edits_and_counts();
    packings();
    answers();
    reads();
    return 0;
}
