// Runs a whole board, rtl/boards/icebreaker.v as Verilator translates it: its serial port is standard input and output, and at the end of
// the input the picture that a monitor would show goes to a file, P6, each dot twice as it is twice as wide as a line is high.
//
// Use: run_board CLOCKS_A_BIT PICTURE [FILM]
//
// FILM takes each frame that differs from the one before: its number, 4 bytes, and its dots, 2 bytes each, as this machine stores them.
#include <unistd.h>

#include <cstdint>
#include <cstdio>
#include <cstdlib>
#include <deque>
#include <vector>

#include "Vicebreaker.h"

namespace {

// What a monitor knows: where the picture begins after the edges of both syncs, and its size.
constexpr int kLeft = 46 + 23, kTop = 2 + 33, kWide = 305, kHigh = 480;

class Board {
 public:
  Board(int clocks_a_bit, FILE* film) : clocks_a_bit_(clocks_a_bit), film_(film) {
    top_.receives = 1;
    top_.reset_n = 1;
  }

  void clock() {
    top_.receives = next_bit();
    top_.clk = 1;
    top_.eval();
    top_.clk = 0;
    top_.eval();
    hear();
    see();
  }

  void receive(const uint8_t* bytes, int count) { waiting_.insert(waiting_.end(), bytes, bytes + count); }

  // Runs until nothing has moved for a while.
  void settle() {
    for (int still = 0; still < 40 * clocks_a_bit_; ++still) {
      clock();
      if (!waiting_.empty() || out_left_ || in_left_ || !top_.busy_n) still = 0;
    }
  }

  bool show(const char* path) {
    for (const uint32_t begun = frames_; frames_ < begun + 2;) clock();
    FILE* file = fopen(path, "wb");
    if (!file) return false;
    fprintf(file, "P6\n%d %d\n255\n", 2 * kWide, kHigh);
    for (uint16_t dot : shown_) {
      const uint8_t colour[3] = {uint8_t((dot >> 8) * 17), uint8_t((dot >> 4 & 15) * 17), uint8_t((dot & 15) * 17)};
      for (int twice = 0; twice < 2; ++twice) fwrite(colour, 1, 3, file);
    }
    return fclose(file) == 0;
  }

 private:
  bool next_bit() {
    if (!out_left_ && !waiting_.empty()) {
      shifted_ = waiting_.front() << 1 | 0x200;
      waiting_.pop_front();
      out_left_ = 10 * clocks_a_bit_;
    }
    return !out_left_ || shifted_ >> (9 - --out_left_ / clocks_a_bit_) & 1;
  }

  void hear() {
    if (!in_left_ && !top_.sends) in_left_ = 10 * clocks_a_bit_;
    if (!in_left_) return;
    const int at = 10 * clocks_a_bit_ - in_left_--;
    if (at % clocks_a_bit_ == clocks_a_bit_ / 2) heard_ = heard_ >> 1 | top_.sends << 9;
    if (in_left_ != clocks_a_bit_ / 4) return;
    in_left_ = 0;
    putchar(heard_ >> 1 & 255);
    fflush(stdout);
  }

  void see() {
    ++x_;
    if (had_hsync_ && !top_.hsync) {
      x_ = 0;
      ++y_;
    }
    if (had_vsync_ && !top_.vsync) {
      y_ = 0;
      ++frames_;
      if (film_ && shown_ != filmed_) {
        filmed_ = shown_;
        fwrite(&frames_, 4, 1, film_);
        fwrite(filmed_.data(), 2, filmed_.size(), film_);
      }
    }
    had_hsync_ = top_.hsync;
    had_vsync_ = top_.vsync;
    const int column = x_ - kLeft, row = y_ - kTop;
    if (column >= 0 && column < kWide && row >= 0 && row < kHigh)
      shown_[row * kWide + column] = top_.red << 8 | top_.green << 4 | top_.blue;
  }

  Vicebreaker top_;
  const int clocks_a_bit_;
  std::deque<uint8_t> waiting_;
  std::vector<uint16_t> shown_ = std::vector<uint16_t>(kWide * kHigh), filmed_;
  FILE* const film_;
  int shifted_ = 0, out_left_ = 0, heard_ = 0, in_left_ = 0, x_ = 0, y_ = 0;
  uint32_t frames_ = 0;
  bool had_hsync_ = true, had_vsync_ = true;
};

}  // namespace

int main(int count_of_words, char** words) {
  FILE* film = count_of_words > 3 ? fopen(words[3], "wb") : nullptr;
  if (count_of_words > 3 && !film) return 1;
  Board board(atoi(words[1]), film);
  uint8_t bytes[4096];
  board.settle();
  for (ssize_t count; (count = read(0, bytes, sizeof bytes)) > 0;) {
    board.receive(bytes, count);
    board.settle();
  }
  const bool is_shown = board.show(words[2]);
  return is_shown && (!film || fclose(film) == 0) ? 0 : 1;
}
