/* SPDX-License-Identifier: Apache-2.0 */
/* rip_poppler IN.pdf DPI JOB FOLDER: a small RIP over Poppler. Splash renders each page into pixels of eight bytes, four process inks and
 * up to four spot colours. libtrap traps them tile by tile: a tile's window with its halo is copied out of the rendered pixels into
 * planes, trapped, and the core is put into the page's plates, so that every halo is read as it was rendered. A page's plates are written
 * as FOLDER/PAGE-NAME.pgm; with "-" in place of JOB as they were rendered. It ends with the library's status, and with 1 if Poppler fails
 * or a file cannot be read or written. */
#include "trap.h"
#include "windows.h"

#include <poppler/GfxState.h>
#include <poppler/GlobalParams.h>
#include <poppler/PDFDoc.h>
#include <poppler/SplashOutputDev.h>
#include <poppler/splash/SplashBitmap.h>

#include <algorithm>
#include <cstdio>
#include <cstdlib>
#include <cstring>
#include <fstream>
#include <iostream>
#include <iterator>
#include <memory>
#include <string>
#include <vector>

namespace {

constexpr uint32_t tile_side = 256;
constexpr int process_inks = 4, pixel_bytes = 8, poppler_fails = 1;

/* A page: its sides, the names of its plates, and the pixels as Splash has them. */
struct Rendered {
  uint32_t width, height;
  size_t row_bytes;
  const unsigned char *pixels;
  std::vector<std::string> names;
};

/* The plates of a page, each row by row from the top; 0 is no ink. */
using Plates = std::vector<std::vector<uint8_t>>;

/* A name as a job has it: what it cannot have becomes an underscore. */
std::string job_name(const std::string &name) {
  std::string made = name.substr(0, 64);
  for (char &byte : made)
    if (byte <= ' ' || byte > '~' || std::strchr("()<>[]{}/%", byte)) byte = '_';
  return made;
}

std::string joined(const std::vector<std::string> &names) {
  std::string all;
  for (const std::string &name : names) all += all.empty() ? name : "\n" + name;
  return all;
}

Rendered rendered(SplashBitmap &bitmap) {
  Rendered page{uint32_t(bitmap.getWidth()), uint32_t(bitmap.getHeight()), size_t(bitmap.getRowSize()), bitmap.getDataPtr(),
                {"Cyan", "Magenta", "Yellow", "Black"}};
  for (const GfxSeparationColorSpace *spot : *bitmap.getSeparationList())
    if (page.names.size() < pixel_bytes) page.names.push_back(job_name(spot->getName()->toStr()));
  return page;
}

uint8_t pixel(const Rendered &page, size_t c, uint32_t y, uint32_t x) { return page.pixels[y * page.row_bytes + x * pixel_bytes + c]; }

Plates untrapped(const Rendered &page) {
  Plates plates(page.names.size(), std::vector<uint8_t>(size_t(page.width) * page.height));
  for (size_t c = 0; c < plates.size(); c++)
    for (uint32_t y = 0; y < page.height; y++)
      for (uint32_t x = 0; x < page.width; x++) plates[c][size_t(y) * page.width + x] = pixel(page, c, y, x);
  return plates;
}

/* A job, its halo, and the grid on which its windows lie. */
struct Job {
  std::string text;
  uint32_t halo, grid;
};

/* Traps the tile whose core begins there. Returns the library's status; the line of a refusal goes to standard error. */
trap_status trap_tile(const Rendered &page, const Job &job, uint32_t left, uint32_t top, Plates &plates) {
  const uint32_t wide = std::min(tile_side, page.width - left), tall = std::min(tile_side, page.height - top);
  const along across = columns_of(left, wide, job.halo, job.grid, page.width), down = rows_of(top, tall, job.halo, job.grid, page.height);
  std::vector<uint8_t> window;
  window.reserve(page.names.size() * across.count * down.count);
  for (size_t c = 0; c < page.names.size(); c++)
    for (uint32_t y = 0; y < down.count; y++)
      for (uint32_t x = 0; x < across.count; x++) window.push_back(pixel(page, c, down.first + y, across.first + x));
  const trap_place place = {page.width, page.height, across.first, down.first, across.core, down.core, wide, tall};
  const std::string names = joined(page.names);
  std::vector<char> text(LIBTRAP_TEXT_SIZE);
  size_t text_len = 0;
  const trap_status status =
      trap_window8(job.text.data(), job.text.size(), names.data(), names.size(), window.data(), window.size(), across.count, down.count,
                   across.count, 255, &place, text.data(), text.size(), &text_len);
  if (status != LIBTRAP_DONE) return std::cerr.write(text.data(), text_len), status;
  for (size_t c = 0; c < plates.size(); c++)
    for (uint32_t y = 0; y < tall; y++) {
      const uint8_t *core = &window[(c * down.count + down.core + y) * across.count + across.core];
      std::copy(core, core + wide, &plates[c][size_t(top + y) * page.width + left]);
    }
  return status;
}

trap_status trap_page(const Rendered &page, const std::string &text_of_job, unsigned dpi, Plates &plates) {
  Job job{text_of_job, 0, grid_of(dpi)};
  size_t text_len = 0;
  std::vector<char> text(LIBTRAP_TEXT_SIZE);
  trap_status status = trap_halo(job.text.data(), job.text.size(), &job.halo, text.data(), text.size(), &text_len);
  if (status != LIBTRAP_DONE) return std::cerr.write(text.data(), text_len), status;
  for (uint32_t top = 0; status == LIBTRAP_DONE && top < page.height; top += tile_side)
    for (uint32_t left = 0; status == LIBTRAP_DONE && left < page.width; left += tile_side)
      status = trap_tile(page, job, left, top, plates);
  return status;
}

/* Writes the plates of a page. In a file 0 is full ink. */
bool write_plates(const Rendered &page, const Plates &plates, const std::string &head) {
  for (size_t c = 0; c < plates.size(); c++) {
    std::string inks(plates[c].begin(), plates[c].end());
    for (char &ink : inks) ink = char(255 - uint8_t(ink));
    std::ofstream file(head + page.names[c] + ".pgm", std::ios::binary);
    file << "P5\n" << page.width << " " << page.height << "\n255\n" << inks;
    if (!file.flush()) return std::cerr << head << page.names[c] << ".pgm: could not be written\n", false;
  }
  return true;
}

int rip_page(PDFDoc &document, SplashOutputDev &device, int number, unsigned dpi, const std::string *job, const std::string &folder) {
  document.displayPage(&device, number, dpi, dpi, 0, false, true, true);
  const Rendered page = rendered(*device.getBitmap());
  Plates plates = untrapped(page);
  const trap_status status = job ? trap_page(page, *job, dpi, plates) : trap_status(LIBTRAP_DONE);
  if (status != LIBTRAP_DONE) return status;
  if (!write_plates(page, plates, folder + "/" + std::to_string(number) + "-")) return poppler_fails;
  std::cout << "page " << number << ": " << page.width << " by " << page.height << " in " << plates.size() << " planes\n";
  return 0;
}

}  // namespace

int main(int count, char **words) {
  const int dpi = count > 2 ? std::atoi(words[2]) : 0;
  if (count != 5 || dpi < 1) return std::cerr << "usage: rip_poppler IN.pdf DPI JOB FOLDER\n", 2;
  std::string job;
  const bool traps = std::strcmp(words[3], "-") != 0;
  if (traps) {
    std::ifstream file(words[3], std::ios::binary);
    if (!file) return std::cerr << words[3] << ": could not be read\n", poppler_fails;
    job.assign(std::istreambuf_iterator<char>(file), std::istreambuf_iterator<char>());
  }
  globalParams = std::make_unique<GlobalParams>();
  PDFDoc document(std::make_unique<GooString>(words[1]));
  if (!document.isOk()) return std::cerr << words[1] << ": Poppler cannot read it\n", poppler_fails;
  SplashColor paper = {};
  SplashOutputDev device(splashModeDeviceN8, 4, false, paper, true, splashThinLineDefault, true);
  device.startDoc(&document);
  int status = 0;
  for (int number = 1; status == 0 && number <= document.getNumPages(); number++)
    status = rip_page(document, device, number, dpi, traps ? &job : nullptr, words[4]);
  return status;
}
