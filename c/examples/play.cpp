// The driver of play.c in C++: a device that closes itself, and an exception where a command stays unanswered.
// It takes the host to be lowest byte first. Usage: play CODEC_FILE [quick | usual | difficult] [SEED]
#include "hda.h"
#include <cstdlib>
#include <cstring>
#include <fstream>
#include <iostream>
#include <iterator>
#include <stdexcept>
#include <string>
#include <vector>

class Device {
    hda *device;

public:
    explicit Device(const std::string &text) {
        char fault[100];
        device = hda_open(text.data(), text.size(), nullptr, 0, fault, sizeof fault);
        if (!device) throw std::runtime_error(std::string("codec refused: ") + fault);
    }
    ~Device() { hda_close(&device); }
    Device(const Device &) = delete;
    Device &operator=(const Device &) = delete;
    void act(const hda_habits &habits) { hda_act(device, &habits); }
    void pass(std::uint64_t frames) { hda_pass(device, frames); }
    std::uint32_t read(std::uint32_t at, unsigned bytes) { return hda_read(device, at, bytes); }
    void write(std::uint32_t at, unsigned bytes, std::uint32_t value) { hda_write(device, at, bytes, value); }
    template <class T> void put(std::uint64_t at, const std::vector<T> &items) {
        hda_dma_write(device, at, items.data(), items.size() * sizeof(T));
    }
    template <class T> T get(std::uint64_t at) {
        T item{};
        hda_dma_read(device, at, &item, sizeof item);
        return item;
    }
    std::vector<hda_pin> pins() {
        std::vector<hda_pin> found(hda_pins(device, nullptr, 0));
        hda_pins(device, found.data(), found.size());
        return found;
    }
    std::vector<hda_item> heard(hda_pin pin) {
        std::uint64_t count = 0;
        hda_heard(device, pin.codec, pin.nid, 0, nullptr, 0, &count);
        std::vector<hda_item> items(count);
        hda_heard(device, pin.codec, pin.nid, 0, items.data(), items.size(), nullptr);
        return items;
    }
};

class Driver {
    static constexpr std::uint32_t corb = 0x1000, rirb = 0x1400, list = 0x2000, buffers = 0x2080, buffer = 384;
    Device &device;
    unsigned sent = 0, seen = 0;

public:
    explicit Driver(Device &d) : device(d) {
        device.write(0x08, 4, 1);
        device.pass(25);
        device.write(0x40, 4, corb);
        device.write(0x50, 4, rirb);
        device.write(0x5A, 2, 1);
        device.write(0x4C, 1, 2);
        device.write(0x5C, 1, 3);
    }
    std::uint32_t ask(std::uint32_t word) {
        for (unsigned waited = 0; waited < 20000; waited++, device.pass(1)) {
            if (waited % 1000 == 0) {
                sent = (sent + 1) % 256;
                device.put(corb + 4 * sent, std::vector<std::uint32_t>{word});
                device.write(0x48, 2, sent);
            }
            if (device.read(0x58, 2) == seen) continue;
            seen = (seen + 1) % 256;
            auto answer = device.get<std::uint32_t>(rirb + 8 * seen);
            device.write(0x5D, 1, 1);
            return answer;
        }
        throw std::runtime_error("no answer to a command");
    }
    void play(const std::vector<std::int16_t> &sound) {
        device.put(buffers, sound);
        device.put(list, std::vector<std::uint32_t>{buffers, 0, buffer, 0, buffers + buffer, 0, buffer, 0});
        device.write(0xA8, 4, 2 * buffer);
        device.write(0xAC, 2, 1);
        device.write(0xB2, 2, 0x0011);
        device.write(0xB8, 4, list);
        device.write(0xA0, 4, 1 << 20 | 2);
        // Holes put the sound off, so LPIB says when the link has taken it.
        for (unsigned waited = 0; waited < 2000 && device.read(0xA4, 4) < sound.size() * 2; waited++) device.pass(1);
        device.write(0xA0, 4, 1 << 20);
    }
};

static hda_habits preset(const std::string &name, std::uint64_t seed) {
    return name == "quick" ? hda_quick(seed) : name == "difficult" ? hda_difficult(seed) : hda_usual(seed);
}

int main(int argc, char **argv) try {
    std::ifstream file(argc > 1 ? argv[1] : "", std::ios::binary);
    std::string text((std::istreambuf_iterator<char>(file)), std::istreambuf_iterator<char>());
    Device device(text);
    device.act(preset(argc > 2 ? argv[2] : "usual", argc > 3 ? std::strtoull(argv[3], nullptr, 0) : 1));
    Driver driver(device);
    std::cout << std::hex << "vendor " << driver.ask(0x000F0000) << std::dec << "\n";
    for (std::uint32_t verb : {0x00170500, 0x00220011, 0x00270610, 0x00C37000, 0x00C37180, 0x0143B000, 0x01470740})
        driver.ask(verb);
    const std::vector<std::int16_t> sound{1, 2, 3, -1};
    driver.play(sound);
    bool good = true;
    for (hda_pin pin : device.pins()) {
        std::vector<std::int16_t> found;
        for (const hda_item &item : device.heard(pin))
            if (item.kind == HDA_SOUND && found.size() < sound.size()) {
                found.push_back(static_cast<std::int16_t>(item.left));
                found.push_back(static_cast<std::int16_t>(item.right));
            }
        good = good && found == sound;
        std::cout << "pin " << unsigned(pin.codec) << ": " << (found == sound ? "played" : "something else") << "\n";
    }
    return good ? 0 : 1;
} catch (const std::exception &fault) {
    std::cout << fault.what() << "\n";
    return 5;
}
