/* SPDX-License-Identifier: MIT OR Apache-2.0 */
/* Sessions of Fezdrok for programs in C++17, over fezdrok.h.
 *
 * Each call has two forms. The first has its answer as its value, and a status other than FEZDROK_DONE is an exception; where
 * exceptions are off, as by -fno-exceptions, it ends the program. The second, whose name begins with try_, has the status as its
 * value, and puts the answer where it is told to. A refusal is an answer in both. */
#ifndef FEZDROK_HPP
#define FEZDROK_HPP

#include <cstddef>
#include <cstdint>
#include <cstdlib>
#include <memory>
#include <new>
#include <stdexcept>
#include <string>
#include <string_view>

#include "fezdrok.h"

namespace fezdrok {

/* What each status but FEZDROK_DONE is, and FEZDROK_NO_MEMORY, which is a std::bad_alloc. */
class error : public std::runtime_error {
public:
    explicit error(std::uint8_t status, std::string_view told = {}) : std::runtime_error(text(status, told)), status_(status) {}
    std::uint8_t status() const noexcept { return status_; }

private:
    static std::string text(std::uint8_t status, std::string_view told) {
        std::string made = fezdrok_status_text(status);
        return told.empty() ? made : made.append(": ").append(told);
    }
    std::uint8_t status_;
};

/* Items of a reply, one after another, as a std::span of C++20 has them. */
class span {
public:
    span(const fezdrok_item *at, std::size_t length) noexcept : at_(at), length_(length) {}
    const fezdrok_item *begin() const noexcept { return at_; }
    const fezdrok_item *end() const noexcept { return at_ + length_; }
    std::size_t size() const noexcept { return length_; }
    bool empty() const noexcept { return length_ == 0; }
    const fezdrok_item &operator[](std::size_t place) const noexcept { return at_[place]; }

private:
    const fezdrok_item *at_;
    std::size_t length_;
};

/* What a call without a text is answered: the members of fezdrok_reply. */
struct reply : fezdrok_reply {
    reply() noexcept : fezdrok_reply() {}

    /* Whether the call was carried out, and not refused. */
    explicit operator bool() const noexcept { return refusal == 0; }

    /* The darts that are crossed, the crossings along an edge, or the edges at a vertex. They lie in the session until its next call
     * without a text. */
    span crossed() const noexcept { return {items, length}; }
    span crossings() const noexcept { return crossed(); }
    span edges() const noexcept { return crossed(); }
};

/* A session, which can be moved, and is closed where it ends. One thread at a time may call it. One that is empty is as one that
 * was closed. */
class session {
    using number = std::uint32_t;

public:
    session() noexcept = default;

    /* Opens a session by the first line of `planar serve`. An opening that is at fault is an error, whose text tells the fault. */
    explicit session(std::string_view settings) {
        std::uint8_t status = try_open(settings, opened_);
        expect(status, opened_);
    }

    /* Opens one in the place of this one, also where the opening is at fault. The answer lies in it until its next call. */
    std::uint8_t try_open(std::string_view settings, std::string_view &answer) noexcept {
        fezdrok_session *made = nullptr;
        fezdrok_text told{nullptr, 0};
        std::uint8_t status = fezdrok_open(settings.data(), settings.size(), &made, &told);
        it_.reset(made);
        answer = view(told);
        return status;
    }

    /* What the first line was answered, until the next call. */
    std::string_view opened() const noexcept { return opened_; }

    /* What a line is answered, until the next call. The line is no part of what the session answered before. */
    std::string_view call(std::string_view line) {
        std::string_view answer;
        expect(try_call(line, answer));
        return answer;
    }
    std::uint8_t try_call(std::string_view line, std::string_view &answer) noexcept {
        fezdrok_text told{nullptr, 0};
        std::uint8_t status = fezdrok_call(it_.get(), line.data(), line.size(), &told);
        opened_ = {};
        answer = view(told);
        return status;
    }

    /* A new vertex on a new edge, from the corner at this position of u: `is.grown`. */
    reply grow(number u, number position = 0, number kind = 0, number caller = 0) {
        return replied([&](reply &made) { return try_grow(made, u, position, kind, caller); });
    }
    std::uint8_t try_grow(reply &made, number u, number position = 0, number kind = 0, number caller = 0) noexcept {
        return fezdrok_grow(it_.get(), caller, u, position, kind, &made);
    }

    /* A new edge from u to v along the first of the cheapest routes: `is.inserted`, `price` and `crossed()`. */
    reply insert(number u, number v, number kind = 0, number caller = 0) {
        return replied([&](reply &made) { return try_insert(made, u, v, kind, caller); });
    }
    std::uint8_t try_insert(reply &made, number u, number v, number kind = 0, number caller = 0) noexcept {
        return fezdrok_insert(it_.get(), caller, u, v, kind, &made);
    }

    /* An edge taken out: `is.deleted`. Its name has a word more, for `delete` is one of the language. */
    reply delete_edge(number edge, number caller = 0) {
        return replied([&](reply &made) { return try_delete_edge(made, edge, caller); });
    }
    std::uint8_t try_delete_edge(reply &made, number edge, number caller = 0) noexcept {
        return fezdrok_delete(it_.get(), caller, edge, &made);
    }

    /* What an insertion of kind 0 would do now: as of `insert`. */
    reply route(number u, number v) {
        return replied([&](reply &made) { return try_route(made, u, v); });
    }
    std::uint8_t try_route(reply &made, number u, number v) noexcept { return fezdrok_route(it_.get(), u, v, &made); }

    /* Takes so many of the last entries of the report back: `is.undone`. */
    reply undo(number entries = 1) {
        return replied([&](reply &made) { return try_undo(made, entries); });
    }
    std::uint8_t try_undo(reply &made, number entries = 1) noexcept { return fezdrok_undo(it_.get(), entries, &made); }

    /* How large the picture is: `is.counts`. */
    reply counts() {
        return replied([&](reply &made) { return try_counts(made); });
    }
    std::uint8_t try_counts(reply &made) noexcept { return fezdrok_counts(it_.get(), &made); }

    /* What is to be known of an edge: `is.edge`, `price` and `crossings()`. */
    reply edge(number edge) {
        return replied([&](reply &made) { return try_edge(made, edge); });
    }
    std::uint8_t try_edge(reply &made, number edge) noexcept { return fezdrok_edge(it_.get(), edge, &made); }

    /* The edges round a vertex, clockwise from the least id: `edges()`. */
    reply vertex(number vertex) {
        return replied([&](reply &made) { return try_vertex(made, vertex); });
    }
    std::uint8_t try_vertex(reply &made, number vertex) noexcept { return fezdrok_vertex(it_.get(), vertex, &made); }

    /* For the functions of fezdrok.h. It is not to be closed. */
    fezdrok_session *handle() const noexcept { return it_.get(); }

private:
    struct closes {
        void operator()(fezdrok_session *it) const noexcept { fezdrok_close(it); }
    };

    /* A text as a view; one of no bytes where there is none. */
    static std::string_view view(fezdrok_text told) noexcept {
        return told.length ? std::string_view{told.at, told.length} : std::string_view{};
    }

    /* The reply that a call of the second form makes. */
    template <typename Call> static reply replied(Call call) {
        reply made;
        expect(call(made));
        return made;
    }

    static void expect(std::uint8_t status, std::string_view told = {}) {
        if (status == FEZDROK_DONE)
            return;
#ifdef __cpp_exceptions
        if (status == FEZDROK_NO_MEMORY)
            throw std::bad_alloc();
        throw error(status, told);
#else
        static_cast<void>(told);
        std::abort();
#endif
    }

    std::unique_ptr<fezdrok_session, closes> it_;
    std::string_view opened_;
};

} // namespace fezdrok

#endif
