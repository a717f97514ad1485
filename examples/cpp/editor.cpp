// Plans edges one by one: takes each that crosses nothing, in C++, and one that crosses others, looks at it, and takes it back.
#include <iostream>

#include "fezdrok.hpp"

// One edge more: what it crosses, as an editor shows it. No call has an exception here.
static std::uint8_t try_edge(fezdrok::session &session, std::uint32_t u, std::uint32_t v) noexcept {
    fezdrok::reply reply;
    std::uint8_t status = session.try_insert(reply, u, v);
    if (status || !reply) {
        std::cout << "refused: " << reply.refusal << '\n';
        return status;
    }
    std::uint32_t edge = reply.is.inserted.edge;
    std::cout << "edge " << edge << " crosses";
    for (const fezdrok_item &dart : reply.crossed())
        std::cout << ' ' << dart.id;
    status = session.try_edge(reply, edge);
    std::cout << ", at " << reply.crossings().size() << " crossings, and costs " << reply.price << '\n';
    return status ? status : session.try_undo(reply, 1);
}

int main() {
    fezdrok::session opened("{\"version\":1}"), session = std::move(opened);
    for (std::uint32_t vertex = 1; vertex < 6; vertex++)
        session.grow(vertex);
    for (std::uint32_t u = 0; u < 7; u++)
        for (std::uint32_t v = u + 1; v < 7; v++)
            if (fezdrok::reply planned = session.route(u, v); planned.crossed().empty())
                session.insert(u, v);
    for (const fezdrok_item &edge : session.vertex(0).edges())
        std::cout << edge.id << (edge.side ? " ends at 0\n" : " begins at 0\n");
    if (try_edge(session, 3, 6) || try_edge(session, 2, 2))
        return 1;
    session.delete_edge(0);
    std::cout << session.call("\"counts\"") << '\n' << session.counts().is.counts.segments << " segments\n";
    try {
        fezdrok::session("{\"version\":3}");
    } catch (const fezdrok::error &fault) {
        std::cout << fault.what() << '\n';
    }
    try {
        opened.undo();
    } catch (const fezdrok::error &moved) {
        std::cout << moved.what() << '\n';
    }
}
