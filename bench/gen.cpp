// Prints the feed of a number, as `celldb gen --number N` does: the baseline of bench/gen.py.
//
// A plain program, with nothing proved of it. A state is an array of its tree's cells, a cell a hash and a depth; an
// update is a list of cells, in an ordered map by the order of an export; SHA-256 is OpenSSL's, or with -DPLAIN one without
// the processor's own instructions.
#include <array>
#include <cstdint>
#include <cstdio>
#include <cstdlib>
#include <cstring>
#include <map>
#include <string>
#include <vector>
#ifndef PLAIN
#include <openssl/sha.h>
#endif

using Bytes = std::string;
using Hash = std::array<uint8_t, 32>;

#ifdef PLAIN
// FIPS 180-4, section 6.2.
static const uint32_t K[64] = {
    0x428a2f98, 0x71374491, 0xb5c0fbcf, 0xe9b5dba5, 0x3956c25b, 0x59f111f1, 0x923f82a4, 0xab1c5ed5, 0xd807aa98, 0x12835b01, 0x243185be,
    0x550c7dc3, 0x72be5d74, 0x80deb1fe, 0x9bdc06a7, 0xc19bf174, 0xe49b69c1, 0xefbe4786, 0x0fc19dc6, 0x240ca1cc, 0x2de92c6f, 0x4a7484aa,
    0x5cb0a9dc, 0x76f988da, 0x983e5152, 0xa831c66d, 0xb00327c8, 0xbf597fc7, 0xc6e00bf3, 0xd5a79147, 0x06ca6351, 0x14292967, 0x27b70a85,
    0x2e1b2138, 0x4d2c6dfc, 0x53380d13, 0x650a7354, 0x766a0abb, 0x81c2c92e, 0x92722c85, 0xa2bfe8a1, 0xa81a664b, 0xc24b8b70, 0xc76c51a3,
    0xd192e819, 0xd6990624, 0xf40e3585, 0x106aa070, 0x19a4c116, 0x1e376c08, 0x2748774c, 0x34b0bcb5, 0x391c0cb3, 0x4ed8aa4a, 0x5b9cca4f,
    0x682e6ff3, 0x748f82ee, 0x78a5636f, 0x84c87814, 0x8cc70208, 0x90befffa, 0xa4506ceb, 0xbef9a3f7, 0xc67178f2};

static uint32_t turned(uint32_t x, int n) { return x >> n | x << (32 - n); }

static void block(uint32_t *state, const uint8_t *bytes) {
  uint32_t w[64];
  for (int t = 0; t < 16; t++)
    w[t] = uint32_t(bytes[4 * t]) << 24 | bytes[4 * t + 1] << 16 | bytes[4 * t + 2] << 8 | bytes[4 * t + 3];
  for (int t = 16; t < 64; t++) {
    uint32_t s0 = turned(w[t - 15], 7) ^ turned(w[t - 15], 18) ^ w[t - 15] >> 3;
    uint32_t s1 = turned(w[t - 2], 17) ^ turned(w[t - 2], 19) ^ w[t - 2] >> 10;
    w[t] = w[t - 16] + s0 + w[t - 7] + s1;
  }
  uint32_t a = state[0], b = state[1], c = state[2], d = state[3], e = state[4], f = state[5], g = state[6], h = state[7];
  for (int t = 0; t < 64; t++) {
    uint32_t t1 = h + (turned(e, 6) ^ turned(e, 11) ^ turned(e, 25)) + ((e & f) ^ (~e & g)) + K[t] + w[t];
    uint32_t t2 = (turned(a, 2) ^ turned(a, 13) ^ turned(a, 22)) + ((a & b) ^ (a & c) ^ (b & c));
    h = g, g = f, f = e, e = d + t1, d = c, c = b, b = a, a = t1 + t2;
  }
  state[0] += a, state[1] += b, state[2] += c, state[3] += d, state[4] += e, state[5] += f, state[6] += g, state[7] += h;
}

static Hash sha256(const uint8_t *bytes, size_t len) {
  uint32_t state[8] = {0x6a09e667, 0xbb67ae85, 0x3c6ef372, 0xa54ff53a, 0x510e527f, 0x9b05688c, 0x1f83d9ab, 0x5be0cd19};
  size_t whole = len / 64 * 64, rest = len - whole;
  for (size_t at = 0; at < whole; at += 64)
    block(state, bytes + at);
  uint8_t last[128] = {};
  std::memcpy(last, bytes + whole, rest);
  last[rest] = 0x80;
  size_t end = rest < 56 ? 64 : 128;
  for (int k = 0; k < 8; k++)
    last[end - 1 - k] = uint64_t(len) * 8 >> 8 * k;
  block(state, last);
  if (end == 128)
    block(state, last + 64);
  Hash hash;
  for (int k = 0; k < 32; k++)
    hash[k] = state[k / 4] >> (24 - 8 * (k % 4));
  return hash;
}
#else
// The calls without the choice of a provider, which costs more than a short text's hash.
#pragma GCC diagnostic ignored "-Wdeprecated-declarations"
static Hash sha256(const uint8_t *bytes, size_t len) {
  Hash hash;
  SHA256_CTX context;
  SHA256_Init(&context);
  SHA256_Update(&context, bytes, len);
  SHA256_Final(hash.data(), &context);
  return hash;
}
#endif

static void put(Bytes &out, uint64_t value, int width) {
  for (int k = width - 1; k >= 0; k--)
    out.push_back(char(value >> 8 * k));
}

static void put(Bytes &out, const Hash &hash) { out.append(reinterpret_cast<const char *>(hash.data()), hash.size()); }

static int width_of(uint64_t value) {
  int width = 1;
  while (width < 8 && value >> 8 * width)
    width++;
  return width;
}

// What a cell shows of itself: masks are 0 or 1 here, so levels 0 and 1 say all.
struct Info {
  int mask = 0;
  Hash hash[2];
  uint16_t depth[2] = {0, 0};
};

// A short text in place: at most two descriptors, 69 bytes, and what two children show.
struct Text {
  uint8_t bytes[144];
  size_t len = 0;

  void add(const void *piece, size_t count) { std::memcpy(bytes + len, piece, count), len += count; }
  void add(const Hash &hash) { add(hash.data(), hash.size()); }
  void add(uint64_t value, int width) {
    for (int k = width - 1; k >= 0; k--)
      bytes[len++] = value >> 8 * k;
  }
};

struct Cell {
  bool exotic = false;
  uint8_t refs = 0;
  uint8_t len = 0;
  uint8_t data[69]; // whole bytes
  Info kids[2];
  Info info;

  void set_data(const Text &text) { std::memcpy(data, text.bytes, text.len), len = text.len; }
};

static void add_head(Text &text, const Cell &cell, int mask) {
  text.add(cell.refs + 8 * cell.exotic + 32 * mask, 1);
  text.add(2 * cell.len, 1);
}

// The representation's hash, with children taken at a level; `below` stands in place of the data where it is given.
static Hash hashed(const Cell &cell, int mask, int level, const Hash *below) {
  Text text;
  add_head(text, cell, mask);
  if (below)
    text.add(*below);
  else
    text.add(cell.data, cell.len);
  for (int k = 0; k < cell.refs; k++)
    text.add(cell.kids[k].depth[level], 2);
  for (int k = 0; k < cell.refs; k++)
    text.add(cell.kids[k].hash[level]);
  return sha256(text.bytes, text.len);
}

static int depth_over(const Cell &cell, int level) {
  int depth = 0;
  for (int k = 0; k < cell.refs; k++)
    depth = std::max(depth, cell.kids[k].depth[level] + 1);
  return depth;
}

static void show_ordinary(Cell &cell) {
  Info &info = cell.info;
  for (int k = 0; k < cell.refs; k++)
    info.mask |= cell.kids[k].mask;
  info.hash[0] = info.hash[1] = hashed(cell, 0, 0, nullptr);
  info.depth[0] = info.depth[1] = depth_over(cell, 0);
  if (info.mask) {
    info.hash[1] = hashed(cell, 1, 1, &info.hash[0]);
    info.depth[1] = depth_over(cell, 1);
  }
}

static Cell leaf_of(uint64_t number, int chain, int j, uint32_t writer) {
  Cell cell;
  Text text;
  text.add(number, 8);
  text.add(chain, 1);
  text.add(j, 2);
  text.add(writer, 4);
  cell.set_data(text);
  show_ordinary(cell);
  return cell;
}

static Cell inner_of(const Info &left, const Info &right) {
  Cell cell;
  cell.refs = 2;
  cell.kids[0] = left;
  cell.kids[1] = right;
  show_ordinary(cell);
  return cell;
}

static Cell pruned_of(const Info &shown) {
  Cell cell;
  Text text;
  cell.exotic = true;
  text.add("\1\1", 2);
  text.add(shown.hash[0]);
  text.add(shown.depth[0], 2);
  cell.set_data(text);
  cell.info.mask = 1;
  cell.info.hash[0] = shown.hash[0];
  cell.info.depth[0] = shown.depth[0];
  cell.info.hash[1] = hashed(cell, 1, 0, nullptr);
  return cell;
}

static Cell update_of(const Info &old, const Info &next) {
  Cell cell;
  Text text;
  cell.exotic = true;
  text.add("\4", 1);
  text.add(old.hash[0]);
  text.add(next.hash[0]);
  text.add(old.depth[0], 2);
  text.add(next.depth[0], 2);
  cell.set_data(text);
  cell.refs = 2;
  cell.kids[0] = old;
  cell.kids[1] = next;
  cell.info.hash[0] = cell.info.hash[1] = hashed(cell, 0, 1, nullptr);
  cell.info.depth[0] = cell.info.depth[1] = depth_over(cell, 1);
  return cell;
}

static uint32_t crc32c(const Bytes &text) {
  static const auto table = [] {
    std::array<uint32_t, 256> table;
    for (uint32_t k = 0; k < 256; k++) {
      uint32_t value = k;
      for (int bit = 0; bit < 8; bit++)
        value = value & 1 ? value >> 1 ^ 0x82f63b78 : value >> 1;
      table[k] = value;
    }
    return table;
  }();
  uint32_t crc = ~0u;
  for (uint8_t byte : text)
    crc = crc >> 8 ^ table[(crc ^ byte) & 255];
  return ~crc;
}

// The distinct cells of a tree, the highest first and then the least hash.
struct Listing {
  std::map<std::pair<int, Hash>, Cell> cells;

  Info put_cell(const Cell &cell) {
    cells.emplace(std::make_pair(-int(cell.info.depth[1]), cell.info.hash[1]), cell);
    return cell.info;
  }

  Bytes bag() const {
    std::map<Hash, int> places;
    for (const auto &entry : cells)
      places.emplace(entry.first.second, int(places.size()));
    int size = width_of(cells.size());
    Bytes data;
    std::vector<size_t> ends;
    for (const auto &[rank, cell] : cells) {
      Text text;
      add_head(text, cell, cell.info.mask);
      text.add(cell.data, cell.len);
      for (int k = 0; k < cell.refs; k++)
        text.add(places.at(cell.kids[k].hash[1]), size);
      data.append(reinterpret_cast<const char *>(text.bytes), text.len);
      ends.push_back(data.size());
    }
    int off_bytes = width_of(data.size());
    Bytes out = {char(0xb5), char(0xee), char(0x9c), char(0x72), char(0xc0 + size), char(off_bytes)};
    put(out, cells.size(), size);
    put(out, 1, size);
    put(out, 0, size);
    put(out, data.size(), off_bytes);
    put(out, 0, size);
    for (size_t end : ends)
      put(out, end, off_bytes);
    out += data;
    uint32_t crc = crc32c(out);
    for (int k = 0; k < 4; k++)
      out.push_back(char(crc >> 8 * k));
    return out;
  }
};

constexpr int LEAVES = 512;

// A chain by its newest state: what its cells show, the root at 1, the children of cell k at 2 k and 2 k + 1.
struct Chain {
  uint64_t number;
  int chain;
  std::vector<Info> state = std::vector<Info>(2 * LEAVES);
  std::vector<uint32_t> writers = std::vector<uint32_t>(LEAVES, 0);
  Hash zero_root;
  Bytes zero_bag;

  Chain(uint64_t number, int chain) : number(number), chain(chain) {
    Listing listing;
    for (int j = 0; j < LEAVES; j++)
      state[LEAVES + j] = listing.put_cell(leaf_of(number, chain, j, 0));
    for (int k = LEAVES - 1; k > 0; k--)
      state[k] = listing.put_cell(inner_of(state[2 * k], state[2 * k + 1]));
    zero_root = state[1].hash[0];
    zero_bag = listing.bag();
  }

  bool writes(int j, uint32_t seqno) const { return unsigned(j % 16) == (seqno + number % 16) % 16; }

  bool writes_below(int cell, uint32_t seqno) const {
    int low = cell, high = cell;
    while (low < LEAVES)
      low = 2 * low, high = 2 * high + 1;
    for (int k = low; k <= high; k++)
      if (writes(k - LEAVES, seqno))
        return true;
    return false;
  }

  // What the update by a block shows from a cell on, with the leaves of a writer; the same cells without pruned branches
  // below them are put into `next`, where it is given.
  Info show(Listing &listing, int cell, uint32_t seqno, bool is_new, std::vector<Info> *next) {
    if (!writes_below(cell, seqno))
      return listing.put_cell(pruned_of(state[cell]));
    Info info;
    if (cell >= LEAVES) {
      int j = cell - LEAVES;
      info = listing.put_cell(leaf_of(number, chain, j, is_new ? seqno : writers[j]));
    } else {
      Info left = show(listing, 2 * cell, seqno, is_new, next);
      Info right = show(listing, 2 * cell + 1, seqno, is_new, next);
      info = listing.put_cell(inner_of(left, right));
    }
    if (next) {
      // The hash at level 0 is that of the cell of the state.
      Info &plain = (*next)[cell];
      plain.mask = 0;
      plain.hash[0] = plain.hash[1] = info.hash[0];
      plain.depth[0] = plain.depth[1] = info.depth[0];
    }
    return info;
  }

  Bytes go_on(uint32_t seqno) {
    Listing listing;
    std::vector<Info> next = state;
    Info old = show(listing, 1, seqno, false, nullptr);
    Info now = show(listing, 1, seqno, true, &next);
    listing.put_cell(update_of(old, now));
    state = std::move(next);
    for (int j = 0; j < LEAVES; j++)
      if (writes(j, seqno))
        writers[j] = seqno;
    return listing.bag();
  }
};

struct Feed {
  uint64_t number;
  std::array<Chain, 3> chains;
  Bytes out;

  explicit Feed(uint64_t number) : number(number), chains{Chain(number, 0), Chain(number, 1), Chain(number, 2)} {}

  void put_id(int chain, uint32_t seqno) {
    static const uint64_t shards[3] = {0x8000000000000000, 0x4000000000000000, 0xc000000000000000};
    put(out, chain ? 0 : 0xffffffff, 4);
    put(out, shards[chain], 8);
    put(out, seqno, 4);
    if (seqno == 0)
      put(out, chains[chain].zero_root);
    else
      out.append(27, 0), put(out, chain, 1), put(out, seqno, 4);
    out.append(24, 0);
    put(out, number, 8);
  }

  void put_tops(int chain, uint32_t seqno) {
    put(out, chain ? 0 : 2, 1);
    if (!chain)
      put_id(1, seqno), put_id(2, seqno);
  }

  void put_bag(const Bytes &bag) { put(out, bag.size(), 4), out += bag; }

  void zero(int chain) { put(out, 1, 1), put_id(chain, 0), put_tops(chain, 0), put_bag(chains[chain].zero_bag); }

  void block(int chain, uint32_t seqno) {
    put(out, 2, 1), put_id(chain, seqno), put_id(chain, seqno - 1), put_tops(chain, seqno);
    put_bag(chains[chain].go_on(seqno));
  }

  void phase(uint32_t seqno) {
    put(out, 5, 2);
    put(out, 1, 2), block(1, seqno);
    put(out, 1, 2), block(2, seqno);
    put(out, seqno <= 66, 2);
    if (seqno <= 66)
      block(0, seqno);
    put(out, 1 + (seqno % 16 == 0), 2);
    put(out, 4, 1), put_id(1, seqno - 1), put(out, 9, 1);
    for (int step = 8; step >= 0; step--)
      put(out, 7 * seqno % 512 >> step & 1, 1);
    if (seqno % 16 == 0)
      put(out, 5, 1), put_id(2, seqno - 1), put(out, 4096, 4);
    put(out, seqno % 8 == 0, 2);
    if (seqno % 8 == 0)
      put(out, 3, 1), put_id(0, seqno - 1);
  }

  const Bytes &text() {
    out = "cdf1";
    put(out, 68, 2);
    put(out, 1, 2), put(out, 3, 2);
    for (int chain = 0; chain < 3; chain++)
      zero(chain);
    for (uint32_t seqno = 1; seqno <= 67; seqno++)
      phase(seqno);
    return out;
  }
};

int main(int count, char **words) {
  Feed feed(count > 1 ? std::strtoull(words[1], nullptr, 10) : 7);
  const Bytes &text = feed.text();
  return std::fwrite(text.data(), 1, text.size(), stdout) != text.size();
}
