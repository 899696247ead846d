// A station as a C++ class, which frees itself and throws what it is refused for. `main` gives it a sign-on's bytes,
// types a name, and prints what is sent and shown.
#include <ribbonscarp.h>

#include <cstdio>
#include <cstdlib>
#include <stdexcept>
#include <string>
#include <vector>

using Bytes = std::vector<std::uint8_t>;

// A byte of the host, or a key, is refused.
struct Refused : std::runtime_error {
    using std::runtime_error::runtime_error;
};

class Station {
public:
    explicit Station(const char *terminal = "IBM-3179-2")
    {
        check(ribbon_station_new(&station, terminal));
    }

    ~Station()
    {
        ribbon_station_free(&station);
    }

    // A handle is never copied while it holds something.
    Station(const Station &) = delete;
    Station &operator=(const Station &) = delete;

    // Takes bytes of the host, and gives the bytes to write.
    Bytes push(const Bytes &bytes)
    {
        Bytes reply(ribbon_reply_room(bytes.size()) + 1);
        ribbon_pushed pushed;
        ribbon_status status =
            ribbon_station_push(&station, bytes.data(), bytes.size(), reply.data(), reply.size(), &pushed);
        if (status == RIBBON_REFUSED)
            throw Refused("byte " + std::to_string(pushed.place) + ": " + ribbon_reason_text(pushed.reason));
        check(status);
        reply.resize(pushed.replied);
        return reply;
    }

    // Presses a key, and gives the bytes to write.
    Bytes press(std::uint32_t kind, std::uint32_t value = 0)
    {
        Bytes answer(RIBBON_ANSWER_ROOM);
        ribbon_told told;
        ribbon_status status = ribbon_station_key(&station, kind, value, answer.data(), answer.size(), &told);
        if (status == RIBBON_KEY_REFUSED)
            throw Refused(ribbon_refusal_text(told.reason));
        check(status);
        answer.resize(told.length);
        return answer;
    }

    // What a row shows, 1 to 24, without blanks at its end.
    std::string row(std::uint8_t number)
    {
        char text[RIBBON_ROW_ROOM];
        ribbon_told told;
        check(ribbon_station_row(&station, number, text, sizeof text, &told));
        std::string shown(text, told.length);
        return shown.substr(0, shown.find_last_not_of(' ') + 1);
    }

private:
    ribbon_station station = RIBBON_STATION_NONE;

    static void check(ribbon_status status)
    {
        if (status != RIBBON_DONE)
            throw std::runtime_error(ribbon_status_text(status));
    }
};

static void print(const Bytes &bytes)
{
    for (std::uint8_t byte : bytes)
        std::printf("%02X", byte);
    std::putchar('\n');
}

int main()
{
    // DO and WILL of the options, and a record: Clear Unit, a write of `User` and of a field at 6 53, Read MDT Fields.
    const Bytes opening = {0xff, 0xfd, 0x18, 0xff, 0xfd, 0x19, 0xff, 0xfb, 0x19, 0xff, 0xfd, 0x00, 0xff, 0xfb, 0x00};
    const Bytes record = {0x00, 0x24, 0x12, 0xa0, 0x00, 0x00, 0x04, 0x00, 0x00, 0x03, 0x04, 0x40, 0x04,
                          0x11, 0x00, 0x08, 0x11, 0x06, 0x11, 0xe4, 0xa2, 0x85, 0x99, 0x11, 0x06, 0x34,
                          0x1d, 0x40, 0x00, 0x20, 0x00, 0x0a, 0x04, 0x52, 0x00, 0x00, 0xff, 0xef};
    try {
        Station station;
        print(station.push(opening));
        print(station.push(record));
        for (char letter : std::string("BOB"))
            station.press(RIBBON_KEY_CHAR, static_cast<std::uint8_t>(letter));
        std::puts(station.row(6).c_str());
        print(station.press(RIBBON_KEY_AID, RIBBON_AID_ENTER));
        station.press(RIBBON_KEY_CHAR, 'A');
    } catch (const Refused &refused) {
        std::printf("refused: %s\n", refused.what());
        return EXIT_SUCCESS;
    }
    return EXIT_FAILURE;
}
