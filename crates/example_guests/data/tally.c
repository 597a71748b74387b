// A guest that buys memory: for each page that it is given it charges its host's account.

__attribute__((import_module("host"), import_name("charge"))) int charge(int units);

__attribute__((export_name("buy"))) int buy(int pages) {
  int bought = 0;
  while (bought < pages && __builtin_wasm_memory_grow(0, 1) != -1) {
    charge(10);
    bought++;
  }
  return bought;
}
