// A job's file, read leniently: lines KEY = VALUE, in units of 0.01 mm.
#pragma once

#include <fstream>
#include <map>
#include <sstream>

#include "geometry.hpp"

struct Job {
    std::map<std::string, std::string> values;

    bool has(const char* key) const { return values.count(key) > 0; }

    std::string text(const char* key) const {
        auto found = values.find(key);
        if (found == values.end()) die(std::string("the job lacks ") + key);
        return found->second;
    }

    double units(const char* key) const { return atof(text(key).c_str()); }

    double millimetres(const char* key) const { return units(key) / 100; }

    std::vector<double> list(const char* key) const {
        std::string words = text(key);
        for (auto& c : words)
            if (c == '[' || c == ']' || c == ',') c = ' ';
        std::stringstream stream(words);
        std::vector<double> out;
        double value;
        while (stream >> value) out.push_back(value);
        return out;
    }

    Cutter cutter() const {
        std::string kind = text("cutter");
        double radius = millimetres("radius");
        if (kind == "flat") return {Kind::Flat, radius, 0};
        if (kind == "ball") return {Kind::Ball, radius, 0};
        return {Kind::Cone, radius, units("rise") / units("run")};
    }
};

inline std::string trimmed(const std::string& text) {
    size_t begin = text.find_first_not_of(" \t\r\""), end = text.find_last_not_of(" \t\r\"");
    return begin == std::string::npos ? std::string() : text.substr(begin, end - begin + 1);
}

inline Job read_job(const char* path) {
    std::ifstream file(path);
    if (!file) die(std::string("cannot open ") + path);
    Job job;
    std::string line;
    while (std::getline(file, line)) {
        line = line.substr(0, line.find('#'));
        size_t equals = line.find('=');
        if (equals == std::string::npos) continue;
        job.values[trimmed(line.substr(0, equals))] = trimmed(line.substr(equals + 1));
    }
    return job;
}
