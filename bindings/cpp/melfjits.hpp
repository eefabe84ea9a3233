/* Melfjits for C++17: one upstream channel in this process, behind an object that closes it.
 *
 * The calls are those of bindings/c/melfjits.h, which has their meaning, and with which libraries a
 * program is linked. A refused call throws a melfjits::error and changes nothing, except for
 * melfjits::not_handled. The caller has to ensure this: a channel is used by one call at a time, on
 * the thread that opened it, and in no signal handler.
 */
#ifndef MELFJITS_HPP
#define MELFJITS_HPP

#include "melfjits.h"

#include <algorithm>
#include <array>
#include <cstddef>
#include <cstdint>
#include <iterator>
#include <memory>
#include <optional>
#include <stdexcept>
#include <string>
#include <string_view>
#include <utility>
#include <variant>
#include <vector>

namespace melfjits {

using bytes = std::vector<std::uint8_t>;

/* A slice and a budget of an operator, in minislots of a frame. */
using slice = melfjits_slice;

/* The hardware address of a cable modem. */
using address = std::array<std::uint8_t, 6>;

/* A call was refused. */
class error : public std::runtime_error {
public:
    explicit error(std::uint32_t code) : std::runtime_error(melfjits_text(code)), code_(code) {}

    /* Returns what the call returned: a number of melfjits_code. */
    std::uint32_t code() const noexcept { return code_; }

private:
    std::uint32_t code_;
};

/* Memory ran out before any effect. The same call can be made again. */
struct out_of_memory : error { using error::error; };

/* The message is in the inbox, and memory ran out before it was handled. work() handles it. */
struct not_handled : error { using error::error; };

/* The channel is closed, or was moved away. */
struct closed_error : error { using error::error; };

/* The plant file is refused. */
struct plant_error : error { using error::error; };

/* A step is refused. */
struct step_error : error { using error::error; };

/* A slice change is refused. */
struct slice_change_error : error { using error::error; };

/* A channel is not saved, or its plant is not changed or does not start in saved states. */
struct state_error : error { using error::error; };

/* Throws the exception of a number that a call returned, unless it is MELFJITS_DONE. */
inline void check(std::uint32_t code)
{
    switch (code) {
    case MELFJITS_DONE: return;
    case MELFJITS_NO_MEMORY: throw out_of_memory(code);
    case MELFJITS_CLOSED: throw closed_error(code);
    case MELFJITS_RECEIVED: throw not_handled(code);
    }
    switch (code / 10) {
    case 1: throw plant_error(code);
    case 2: throw step_error(code);
    case 3: throw slice_change_error(code);
    case 4: throw state_error(code);
    default: throw error(code);
    }
}

/* A reply to a modem: a byte of message type, and the payload. */
struct reply {
    std::size_t operator_at; /* the operator's place in the plant file, from 0 */
    address modem;
    bytes message;
};

/* Why a message has no reply, or a bandwidth request no effect. */
struct drop {
    std::size_t operator_at;
    std::optional<address> modem;
    std::uint32_t cause; /* 1 to 9 in the order of docs/FORMATS.md */
};

/* An operator's part of a frame. */
struct frame {
    std::size_t operator_at;
    std::uint32_t number;
    std::vector<melfjits_grant> spans; /* the minislots of the slice, idle ones included */
    std::vector<std::uint16_t> pending; /* the SIDs with a grant pending */
};

/* The body of the MAP of a frame. */
struct map {
    std::uint32_t number;
    bytes message;
};

using output = std::variant<reply, drop, frame, map>;

/* One upstream channel. It can be moved and not copied. Its end closes it. */
class channel {
public:
    /* Opens the channel of a plant file, which is UTF-8. Throws plant_error and out_of_memory. */
    explicit channel(std::string_view plant) : channel() { check(melfjits_open(handle(), octets_of(plant), plant.size())); }

    /* Opens a channel that was saved, from what save() returned. It goes on before the frame of its
     * snapshot, and no output waits. Throws state_error if that is not a snapshot or its plant does
     * not start in its states, plant_error if the plant file in it is refused, and out_of_memory. */
    static channel open_saved(std::string_view snapshot)
    {
        channel made;
        check(melfjits_open_saved(made.handle(), octets_of(snapshot), snapshot.size()));
        return made;
    }

    /* Returns whether the channel was neither closed nor moved away. */
    bool is_open() const noexcept { return handle_ != nullptr; }

    /* Frees the channel before its end. Throws closed_error if it was closed already. */
    void close()
    {
        handle();
        handle_.reset();
    }

    /* Returns a snapshot of the channel, with its plant file, for open_saved(). The channel has to
     * rest before a frame: each operator ticked as often, and each frame is collected. Outputs that
     * wait are not saved, and go on waiting. Throws state_error if the channel does not rest. */
    std::string save()
    {
        std::string text;
        std::size_t length;
        std::uint32_t code = melfjits_save(handle(), nullptr, 0, &length);
        if (code == MELFJITS_SHORT) {
            text.resize(length);
            code = melfjits_save(handle(), reinterpret_cast<std::uint8_t *>(text.data()), text.size(), &length);
        }
        check(code);
        return text;
    }

    /* Puts another plant file in force between two frames. Each operator goes on in its state, by its
     * name; outputs that wait go on waiting. The channel has to rest as for save(). Throws plant_error
     * if the file is refused, and state_error if the channel does not rest, or the file changes what
     * all operators share or does not fit their states. */
    void change(std::string_view plant) { check(melfjits_change(handle(), octets_of(plant), plant.size())); }

    /* Receives a message of a modem, a byte of message type and the payload, and handles the first
     * of the inbox of its operator. Throws step_error if no operator has the modem. */
    void arrive(const address &modem, const std::uint8_t *message, std::size_t length)
    {
        const melfjits_modem made = modem_of(modem);
        check(melfjits_arrive(handle(), &made, message, length));
    }

    void arrive(const address &modem, const bytes &message) { arrive(modem, message.data(), message.size()); }

    /* Receives a bandwidth request of a modem, and handles the first of the inbox of its operator. */
    void request(const address &modem, std::uint16_t sid, std::uint16_t minislots)
    {
        const melfjits_modem made = modem_of(modem);
        check(melfjits_request(handle(), &made, sid, minislots));
    }

    /* Handles the first of an operator's inbox, after not_handled. */
    void work(std::size_t operator_at) { check(melfjits_work(handle(), operator_at)); }

    /* Advances an operator's timers by a tick, and schedules its next frame. */
    void tick(std::size_t operator_at) { check(melfjits_tick(handle(), operator_at)); }

    /* Puts an operator's oldest frame into the assembly; the last part of a frame completes its MAP. */
    void collect(std::size_t operator_at) { check(melfjits_collect(handle(), operator_at)); }

    /* Gives each operator, in the order of the plant file, another slice and budget from a frame on.
     * Throws slice_change_error. */
    void reslice(std::uint32_t from, const std::vector<slice> &rows)
    {
        check(melfjits_reslice(handle(), from, rows.data(), rows.size()));
    }

    /* Fetches the output that waits first, or none if none waits. All memory is allocated before: an
     * output for which there is none goes on waiting, and std::bad_alloc is thrown. */
    std::optional<output> next_output()
    {
        melfjits_output head;
        bytes message;
        std::vector<melfjits_grant> grants;
        std::vector<std::uint16_t> pending;
        std::uint32_t code = melfjits_next_output(handle(), &head, nullptr, 0, nullptr, 0);
        if (code == MELFJITS_SHORT) {
            message.resize(head.length);
            grants.resize(head.granted + head.pending);
            pending.reserve(head.pending);
            code = melfjits_next_output(handle(), &head, message.data(), message.size(), grants.data(), grants.size());
        }
        if (code == MELFJITS_NONE_WAITS)
            return std::nullopt;
        check(code);
        return output_of(head, std::move(message), std::move(grants), std::move(pending));
    }

private:
    struct closing {
        void operator()(melfjits_channel *handle) const noexcept
        {
            melfjits_close(handle);
            delete handle;
        }
    };

    /* Makes a handle that is closed. */
    channel() : handle_(new melfjits_channel MELFJITS_CLOSED_CHANNEL) {}

    static const std::uint8_t *octets_of(std::string_view text) noexcept
    {
        return reinterpret_cast<const std::uint8_t *>(text.data());
    }

    melfjits_channel *handle() const
    {
        if (!handle_)
            throw closed_error(MELFJITS_CLOSED);
        return handle_.get();
    }

    static melfjits_modem modem_of(const address &modem)
    {
        melfjits_modem made;
        std::copy(modem.begin(), modem.end(), made.bytes);
        return made;
    }

    /* Returns the output with this head. It allocates nothing: `pending` has room for what it gets. */
    static output output_of(const melfjits_output &head, bytes message, std::vector<melfjits_grant> grants,
                            std::vector<std::uint16_t> pending)
    {
        address modem;
        std::copy(std::begin(head.modem), std::end(head.modem), modem.begin());
        switch (head.kind) {
        case MELFJITS_REPLY: return reply{head.operator_at, modem, std::move(message)};
        case MELFJITS_MAP: return map{head.frame, std::move(message)};
        case MELFJITS_FRAME:
            for (std::size_t at = head.granted; at < grants.size(); at++)
                pending.push_back(grants[at].sid);
            grants.resize(head.granted);
            return frame{head.operator_at, head.frame, std::move(grants), std::move(pending)};
        default: return drop{head.operator_at, modem == address{} ? std::nullopt : std::optional(modem), head.cause};
        }
    }

    std::unique_ptr<melfjits_channel, closing> handle_;
};

} // namespace melfjits

#endif
