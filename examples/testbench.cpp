// A testbench: a core with a memory of code, a memory of data and one device, each answering in the next clock.
// It runs the loop of the README's first program and prints what is done.
#include "ahead.h"

#include <cinttypes>
#include <cstdio>
#include <cstdlib>
#include <deque>
#include <map>
#include <vector>

namespace {

constexpr uint32_t kDevices = 0x80000000u;

struct Request {
  uint32_t kind, address, value;
};

class Testbench {
 public:
  explicit Testbench(std::vector<uint32_t> code) : code_(std::move(code)), core_(AHEAD_CORE_WORDS) {
    if (ahead_start(0, core_.data(), core_.size()) != AHEAD_READY) std::abort();
  }

  // One clock; false once the core has stopped.
  bool Clock() {
    Answer();
    if (ahead_clock(core_.data(), core_.size(), in_, AHEAD_IN_WORDS, out_, AHEAD_OUT_WORDS) != AHEAD_DONE) std::abort();
    if (out_[0] == 1) wants_.push_back(out_[1]);
    if (out_[2] != 0) requests_.push_back({out_[2], out_[3], out_[4]});
    Show();
    ++clock_;
    return out_[5] == 0;
  }

 private:
  void Answer() {
    for (uint32_t &word : in_) word = 0;
    if (!wants_.empty()) {
      const uint32_t number = wants_.front() / 4;
      in_[0] = 1;
      in_[1] = number < code_.size() ? code_[number] : 0;
      wants_.pop_front();
    }
    if (!requests_.empty()) {
      const Request request = requests_.front();
      requests_.pop_front();
      in_[2] = 1;
      if (request.kind == 2 && request.address < kDevices) data_[request.address / 4] = request.value;
      if (request.kind == 1) in_[3] = request.address < kDevices ? data_[request.address / 4] : 99;
    }
  }

  void Show() const {
    for (uint32_t n = 0; n < out_[7]; ++n) {
      const uint32_t *done = out_ + 8 + 3 * n;
      std::printf("clock %3d  0x%08" PRIx32 "  x%" PRIu32 " = %" PRIu32 "\n", clock_, done[0], done[1], done[2]);
    }
    if (out_[2] == 2) std::printf("clock %3d  write 0x%08" PRIx32 " <- %" PRIu32 "\n", clock_, out_[3], out_[4]);
    if (out_[2] == 1 && out_[3] >= kDevices) std::printf("clock %3d  ask   0x%08" PRIx32 "\n", clock_, out_[3]);
    if (out_[5] == 1) std::printf("clock %3d  stopped with %" PRIu32 "\n", clock_, out_[6]);
  }

  std::vector<uint32_t> code_;
  std::vector<uint32_t> core_;
  std::map<uint32_t, uint32_t> data_;
  std::deque<uint32_t> wants_;
  std::deque<Request> requests_;
  uint32_t in_[AHEAD_IN_WORDS] = {};
  uint32_t out_[AHEAD_OUT_WORDS] = {};
  int clock_ = 0;
};

}  // namespace

int main() {
  // x10 adds 4 + 3 + 2 + 1; it goes to a device; what the device answers is written to 8 and read back.
  Testbench bench({4194963, 5571891, 4294083219, 4261584099, 2147484599, 10723363, 4432643, 6300707, 8398211, 115});
  for (int clock = 0; clock < 1000; ++clock) {
    if (!bench.Clock()) return 0;
  }
  std::fprintf(stderr, "it did not stop within 1000 clocks\n");
  return 1;
}
