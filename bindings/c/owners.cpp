// Handles that C++ objects own: each is closed once, whatever is moved, thrown, kept longer than its editor or used in a forked child.
#include "kuvteleg.h"
#include <cstdio>
#include <mutex>
#include <stdexcept>
#include <string>
#include <sys/wait.h>
#include <thread>
#include <unistd.h>
#include <utility>
#include <vector>

static unsigned passed, failed;
#define SEE(it) ((it) ? (void)passed++ : (void)(failed++, std::printf("owners.cpp:%d: not so: %s\n", __LINE__, #it)))

static const uint8_t *bytes(const std::string &text) { return reinterpret_cast<const uint8_t *>(text.data()); }

struct Refusal : std::runtime_error {
    uint32_t code;
    explicit Refusal(uint32_t code) : std::runtime_error(kuvteleg_name(code)), code(code) {}
};

static void done(uint32_t code) {
    if (code)
        throw Refusal(code);
}

class Reader {
    kuvteleg_reader handle{};
    friend class Editor;

  public:
    Reader() = default;
    Reader(Reader &&other) noexcept : handle(std::exchange(other.handle, kuvteleg_reader{})) {}
    Reader &operator=(Reader &&other) noexcept {
        std::swap(handle, other.handle);
        return *this;
    }
    ~Reader() { kuvteleg_leave(&handle); }

    Reader share() {
        Reader second;
        done(kuvteleg_share(&handle, &second.handle));
        return second;
    }

    std::string ask(const std::string &line) {
        std::string reply(16, '\0');
        size_t len = 0;
        done(kuvteleg_ask(&handle, bytes(line), line.size(), reinterpret_cast<uint8_t *>(&reply[0]), reply.size(), &len));
        bool fits = len <= reply.size();
        reply.resize(len);
        if (!fits)
            done(kuvteleg_answer(&handle, reinterpret_cast<uint8_t *>(&reply[0]), reply.size(), &len));
        return reply;
    }
};

class Editor {
    kuvteleg_editor handle{};

  public:
    Editor() { done(kuvteleg_open(&handle, KUVTELEG_NEWEST)); }
    Editor(Editor &&other) noexcept : handle(std::exchange(other.handle, kuvteleg_editor{})) {}
    ~Editor() { kuvteleg_close(&handle); }

    void create(uint32_t kind, const std::string &id, const std::string &body) {
        uint64_t version;
        done(kuvteleg_create(&handle, 1704067200, 0, kind, bytes(id), id.size(), bytes(body), body.size(), &version));
    }

    uint64_t publish() {
        uint64_t number, version;
        done(kuvteleg_publish(&handle, &number, &version));
        return number;
    }

    Reader look() {
        Reader reader;
        done(kuvteleg_look(&handle, &reader.handle));
        return reader;
    }
};

static const char *const TYPES = "version 4\nPRICE\n.\n";

static Editor filled() {
    Editor editor;
    editor.create(KUVTELEG_PROGRAM, "p1", "{\"programName\":\"P\"}");
    editor.create(KUVTELEG_VEN, "v1", "{\"venName\":\"V\"}");
    editor.create(KUVTELEG_RESOURCE, "r1", "{\"resourceName\":\"R\",\"venID\":\"v1\"}");
    editor.create(KUVTELEG_EVENT, "e1",
                  "{\"programID\":\"p1\",\"intervals\":[{\"intervalPeriod\":{\"start\":\"2024-01-01T00:00:00Z\",\"duration\":\"PT1H\"},"
                  "\"payloads\":[{\"type\":\"PRICE\",\"values\":[17]}]}]}");
    SEE(editor.publish() == 1);
    return editor;
}

static uint32_t refusal_of_an_empty_id(Editor &editor) {
    try {
        editor.create(KUVTELEG_VEN, "", "{}");
    } catch (const Refusal &refusal) {
        return refusal.code;
    }
    return KUVTELEG_OK;
}

static void moved_and_kept() {
    std::vector<Reader> readers;
    {
        Editor first = filled(), editor = std::move(first);
        for (int i = 0; i < 100; i++)
            readers.push_back(editor.look());
        SEE(refusal_of_an_empty_id(editor) == KUVTELEG_BAD_ID && refusal_of_an_empty_id(first) == KUVTELEG_CLOSED);
    }
    readers.erase(readers.begin() + 1, readers.end() - 1);
    SEE(readers[0].ask("types r1") == TYPES && readers[1].ask("types r1") == TYPES);
    readers[0] = std::move(readers[1]);
    readers.pop_back();
    SEE(readers[0].ask("types r1") == TYPES);
}

static void shared_by_threads() {
    std::mutex gate;
    Reader latest = filled().look();
    std::vector<std::thread> threads;
    std::vector<int> right(4);
    for (int &count : right)
        threads.emplace_back([&gate, &latest, &count] {
            for (int i = 0; i < 500; i++) {
                std::unique_lock<std::mutex> lock(gate);
                Reader mine = latest.share();
                lock.unlock();
                count += mine.ask("types r1") == TYPES;
            }
        });
    for (std::thread &it : threads)
        it.join();
    SEE(right == std::vector<int>(4, 500));
}

// In a child of a process that has no other thread.
static int in_child(Editor editor, Reader reader) {
    editor.create(KUVTELEG_VEN, "v2", "{\"venName\":\"V\"}");
    return editor.publish() == 2 && editor.look().ask("types r1") == "version 5\nPRICE\n.\n" && reader.ask("types r1") == TYPES;
}

static void forked() {
    Editor editor = filled();
    Reader reader = editor.look();
    std::fflush(stdout);
    pid_t child = fork();
    if (child == 0)
        _exit(!in_child(std::move(editor), std::move(reader)));
    int status = 1;
    SEE(waitpid(child, &status, 0) == child && status == 0);
    SEE(editor.publish() == 2 && reader.ask("types r1") == TYPES);
}

int main() {
    forked();
    moved_and_kept();
    shared_by_threads();
    std::printf("%u passed, %u failed\n", passed, failed);
    return failed != 0;
}
