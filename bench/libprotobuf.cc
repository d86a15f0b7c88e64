// The same work by libprotobuf's C++: reading a file into an arena, and writing it with its entries in order.
// `bench/run` builds it where it can. WORK FILE TIMES, as ds_bench has them, and the same line printed.
#include <chrono>
#include <cstdio>
#include <fstream>
#include <iterator>
#include <string>

#include <google/protobuf/arena.h>
#include <google/protobuf/io/coded_stream.h>
#include <google/protobuf/io/zero_copy_stream_impl_lite.h>

#include "preferences.pb.h"

using androidx::datastore::preferences::PreferenceMap;

static bool decode(const std::string &bytes) {
  google::protobuf::Arena arena;
  return google::protobuf::Arena::CreateMessage<PreferenceMap>(&arena)->ParseFromString(bytes);
}

static bool encode(const PreferenceMap &map, std::string &out) {
  out.clear();
  google::protobuf::io::StringOutputStream stream(&out);
  google::protobuf::io::CodedOutputStream coded(&stream);
  coded.SetSerializationDeterministic(true);
  return map.SerializeToCodedStream(&coded);
}

int main(int, char **words) {
  const std::string work = words[1];
  std::ifstream file(words[2], std::ios::binary);
  const std::string bytes{std::istreambuf_iterator<char>(file), {}};
  const int times = std::stoi(words[3]);
  PreferenceMap map;
  std::string out;
  bool is_well = map.ParseFromString(bytes);
  const auto start = std::chrono::steady_clock::now();
  for (int time = 0; time < times; time++) {
    is_well &= work == "decode" ? decode(bytes) : encode(map, out);
  }
  const std::chrono::nanoseconds spent = std::chrono::steady_clock::now() - start;
  std::printf("%s %zu %d %lld\n", work.c_str(), bytes.size(), times, static_cast<long long>(spent.count()));
  return is_well ? 0 : 1;
}
