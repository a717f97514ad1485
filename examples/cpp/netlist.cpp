/* SPDX-License-Identifier: MIT OR Apache-2.0 */
/* A netlist, planarized by calls of a session and written for Graphviz: cells are boxes, crossings of wires are points. Each of the
 * 300 nets joins a cell with one to three others, chosen at random, always in the same way. */
#include <cstdint>
#include <cstdio>
#include <cstdlib>
#include <vector>

#include "fezdrok.hpp"

namespace {

constexpr std::uint32_t cells = 120, nets = 300;

/* Knuth's multiplier; the upper bits are used, which are more random. */
std::uint32_t below(std::uint32_t bound) {
    static std::uint64_t state = 1;
    state = state * 6364136223846793005u + 1442695040888963407u;
    return static_cast<std::uint32_t>((state >> 33) % bound);
}

/* A reply, or an error where the call was refused. */
const fezdrok::reply &done(const fezdrok::reply &reply) {
    if (!reply)
        throw std::runtime_error("refused: " + std::to_string(reply.refusal));
    return reply;
}

/* Puts each further cell on a wire from one that is there. */
void place(fezdrok::session &session) {
    for (std::uint32_t cell = 2; cell < cells; ++cell)
        done(session.grow(below(cell)));
}

/* Inserts the wires of a net, each along a cheapest route. */
void route(fezdrok::session &session, std::vector<std::uint32_t> &wires) {
    std::uint32_t driver = below(cells), sinks = 1 + below(3);
    for (std::uint32_t sink = 0; sink < sinks; ++sink) {
        std::uint32_t cell = (driver + 1 + below(cells - 1)) % cells;
        wires.push_back(done(session.insert(driver, cell)).is.inserted.edge);
    }
}

/* Writes a wire from one cell to the other, by way of its crossings. */
void write(fezdrok::session &session, std::uint32_t wire) {
    fezdrok::reply edge = session.edge(wire);
    std::printf("  c%u", done(edge).is.edge.a);
    for (const fezdrok_item &crossing : edge.crossings())
        std::printf(" -- x%u", crossing.id);
    std::printf(" -- c%u;\n", edge.is.edge.b);
}

} // namespace

int main() {
    try {
        fezdrok::session session(R"({"version":1})");
        std::vector<std::uint32_t> wires;
        place(session);
        for (std::uint32_t edge = 0; edge + 1 < cells; ++edge)
            wires.push_back(edge);
        for (std::uint32_t net = 0; net < nets; ++net)
            route(session, wires);
        fezdrok::reply size = session.counts();
        std::printf("graph netlist {\n  node [shape=point];\n");
        for (std::uint32_t cell = 0; cell < cells; ++cell)
            std::printf("  c%u [shape=box];\n", cell);
        for (std::uint32_t wire : wires)
            write(session, wire);
        std::printf("} // %u crossings, %u segments\n", size.is.counts.crossings, size.is.counts.segments);
    } catch (const std::exception &failed) {
        std::fprintf(stderr, "netlist: %s\n", failed.what());
        return EXIT_FAILURE;
    }
}
