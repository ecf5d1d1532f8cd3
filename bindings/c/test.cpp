// Tests kdl.hpp: what a user does first, each member where it succeeds and where it throws, and texts
// with each character.
#include "kdl.hpp"

#include <clocale>
#include <cmath>
#include <cstdio>
#include <cstdlib>
#include <new>
#include <sstream>
#include <type_traits>

#define CHECK(condition)                                                                                               \
    do {                                                                                                               \
        if (!(condition)) {                                                                                            \
            std::fprintf(stderr, "%s:%d: fails: %s\n", __FILE__, __LINE__, #condition);                                \
            std::exit(1);                                                                                              \
        }                                                                                                              \
    } while (0)

/// How many more allocations of C++ succeed, if `is_limited`.
static long allocations = 0;
static bool is_limited = false;

[[gnu::noinline]] void *operator new(std::size_t size) {
    void *made = is_limited && allocations-- <= 0 ? nullptr : std::malloc(size ? size : 1);
    if (made == nullptr) {
        throw std::bad_alloc();
    }
    return made;
}
[[gnu::noinline]] void operator delete(void *at) noexcept { std::free(at); }
[[gnu::noinline]] void operator delete(void *at, std::size_t) noexcept { std::free(at); }

namespace {

/// Returns the status that the call throws, or KDL_OK if it throws none.
template <class Call> std::uint32_t thrown(Call call) {
    try {
        call();
    } catch (const kdl::error &error) {
        CHECK(error.what()[0] != '\0' && std::string(error.status_text()) == kdl_status_text(error.status()));
        CHECK(error.status() == KDL_FAULTS || error.faults().empty());
        return error.status();
    }
    return KDL_OK;
}

/// Returns the faults that the call throws.
template <class Call> std::vector<kdl::fault> faults_of(Call call) {
    try {
        call();
    } catch (const kdl::error &error) {
        CHECK(error.status() == KDL_FAULTS && !error.faults().empty());
        return error.faults();
    }
    return {};
}

kdl::node the(std::optional<kdl::node> found) {
    CHECK(found);
    return *found;
}

// ---- What a user does first ----

/// A file of settings as a person writes it: a licence, comments, a flag that is off, two levels.
const char *const settings = R"(// Copyright Ada
/* settings of the web server */

server "main" host=localhost /-debug=#true {
    port 8080 // the usual one
    /-port 80
    tls #true min=1.2
    names "a.example" "b.example"
}

client timeout=0x1e
)";

void round_trip() {
    for (const char *text : {"", "\n", settings, "a;b",
                             "\xEF\xBB\xBF"
                             "a\r\n",
                             "a \\ // c\n 1", "a { }", "(t)a k=(v)1"}) {
        CHECK(kdl::document(text).to_string() == text);
    }
    std::ostringstream out;
    out << kdl::document(settings);
    CHECK(out.str() == settings);
}

void look_at_values() {
    kdl::document document(settings);
    kdl::node server = the(document.find({"server"}));
    CHECK(server.argument(0) == "main" && server.property("host")->as<std::string>() == "localhost");
    CHECK(!server.property("debug") && !server.argument(1));
    CHECK(the(document.find({"server", "port"})).argument(0)->as<int>() == 8080);
    CHECK(the(server.find({"tls"})).argument(0)->as<bool>());
    CHECK(the(server.find({"tls"})).property("min")->as<double>() == 1.2);
    CHECK(the(document.find({"client"})).property("timeout") == 30);
    CHECK(!document.find({"server", "ports"}) && !document.find({"port"}) && !document.find({}));
}

void iterate() {
    kdl::document document(settings);
    std::string seen;
    for (kdl::node node : document.nodes()) {
        for (kdl::entry entry : node.entries()) {
            seen += node.name() + ' ' + entry.key().value_or("-") + ' ' + entry.value().to_kdl() + '\n';
        }
        for (auto child : node.children()) {
            seen += node.name() + '/' + child.name() + ' ' + std::to_string(child.entries().size()) + '\n';
        }
    }
    CHECK(seen == "server - \"main\"\nserver host \"localhost\"\nserver/port 1\nserver/tls 2\nserver/names 2\n"
                  "client timeout 30\n");
}

/// Returns the settings with one text in place of another.
std::string changed(const std::string &from, const std::string &to) {
    std::string text = settings;
    std::size_t at = text.find(from);
    CHECK(at != std::string::npos);
    return text.replace(at, from.size(), to);
}

void change_values() {
    kdl::document document(settings);
    kdl::node port = the(document.find({"server", "port"}));
    port.set_argument(0, 9090);
    CHECK(document.to_string() == changed("8080", "9090")); // all comments and spaces stay
    port.set_value(0, "0x2382");
    CHECK(document.to_string() == changed("8080", "0x2382") && port.argument(0) == 9090);
    port.set_value(0, "8080");
    the(document.find({"server"})).set_property("host", "::1");
    CHECK(document.to_string() == changed("=localhost", "=\"::1\""));
    the(document.find({"server"})).set_value(1, "localhost");
    the(document.find({"client"})).set_property("retries", 3);
    CHECK(document.to_string() == changed("0x1e", "0x1e retries=3"));
    CHECK(the(document.find({"client"})).remove_property("retries") == 1);
    CHECK(document.to_string() == settings);
}

void add_and_remove() {
    kdl::document document(settings);
    kdl::node server = the(document.find({"server"}));
    kdl::node added = server.add_node("    log \"/var/log\"\n");
    CHECK(document.to_string() == changed("\"b.example\"\n", "\"b.example\"\n    log \"/var/log\"\n"));
    CHECK(added.name() == "log" && added.path() == (kdl::path{0, 3}) && added.argument(0) == "/var/log");
    added.remove();
    CHECK(document.to_string() == settings);
    document.add_node("cache {\n    size 10\n}\n");
    CHECK(document.to_string() == std::string(settings) + "cache {\n    size 10\n}\n");
    CHECK(the(document.find({"cache", "size"})).argument(0) == 10);
    document.nodes()[2].remove();
    the(document.find({"client"})).remove();
    CHECK(document.to_string() == changed("\nclient timeout=0x1e\n", ""));
    CHECK(server.remove_property("host") == 1 && server.remove_property("host") == 0);
    CHECK(document.to_string().find("server \"main\" /-debug=#true {\n") != std::string::npos);
}

void errors_with_places() {
    const char *const text = "server {\n    port #treu\r\n    \"\xC3\xA9\" 1x\n}\n";
    auto faults = faults_of([&] { kdl::document document(text); });
    CHECK(faults.size() == 2);
    CHECK(faults[0].start == 18 && faults[0].size == 5 && faults[0].line == 2 && faults[0].column == 10);
    CHECK(faults[0].message == "Expected keyword" && faults[0].label == "not keyword");
    CHECK(faults[0].help.find("#true") != std::string::npos);
    CHECK(faults[1].line == 3 && faults[1].column == 9 && faults[1].start == 34);
    try {
        kdl::document document(text);
        CHECK(false);
    } catch (const std::exception &error) {
        CHECK(std::string(error.what()) == "2:10: Expected keyword");
    }
    // an unclosed block comes last, and begins first
    faults = kdl::faults("a {\n  b #x\n");
    CHECK(faults.size() == 2 && faults[0].line == 2 && faults[0].column == 5);
    CHECK(faults[1].start == 2 && faults[1].line == 1 && faults[1].column == 3);
    CHECK(kdl::faults(settings).empty());
}

void lay_out() {
    kdl::document document("a   1 {  b 0x10 // c\n\n\n\n  }\n/* d */ e");
    document.format();
    CHECK(document.to_string() == "a 1 {\n    b 16 // c\n}\n/* d */\ne\n");
    document.strip();
    CHECK(document.to_string() == "a 1 {\n    b 16\n}\ne\n");
    CHECK(kdl::format_text("a   0x1") == "a 1\n" && kdl::format_text("") == "\n");
    CHECK(thrown([] { kdl::format_text("a }"); }) == KDL_FAULTS);
}

void lay_out_as_asked() {
    auto laid = [](const char *text, const kdl::layout &how) {
        kdl::document document(text);
        document.format(how);
        return document.to_string();
    };
    CHECK(laid("a  {  b; }\n\n\n\n// c\nd  0x10", {}) == "a {\n    b\n}\n// c\nd 16\n");
    kdl::layout how;
    how.blank_lines = 1;
    how.indent = "\t";
    CHECK(laid("a  {  b; }\n\n\n\n// c\nd  0x10", how) == "a {\n\tb\n}\n\n// c\nd 16\n");
    how.no_comments = true;
    how.keep_spelling = true;
    how.indent = "";
    CHECK(laid("a  {\nb; }\n\n\n\nd  0x10 // c", how) == "a {\nb\n}\n\nd 0x10\n");
    how.keep_one_line = true;
    CHECK(laid("a  {  b; }", how) == "a { b }\n");
    kdl::document document("a  1");
    how.indent = "x";
    CHECK(thrown([&] { document.format(how); }) == KDL_FAULTS);
    how.indent = "\xff";
    CHECK(thrown([&] { document.format(how); }) == KDL_NOT_UTF8);
    CHECK(document.to_string() == "a  1");
}

void query() {
    kdl::document document("a { b 1; c { b 2; }; }; b k=x long; a { b 3 4; }");
    std::vector<kdl::path> paths;
    for (kdl::node &node : document.query("b")) {
        CHECK(node.name() == "b");
        paths.push_back(node.path());
    }
    CHECK((paths == std::vector<kdl::path>{{0, 0}, {0, 1, 0}, {1}, {2, 0}}));
    for (kdl::node &node : document.query("a > b[val() > 1]")) {
        node.set_argument(0, 30);
    }
    CHECK(document.to_string() == "a { b 1; c { b 2; }; }; b k=x long; a { b 30 4; }");
    std::vector<kdl::node> found = document.query("b || c");
    for (auto it = found.rbegin(); it != found.rend(); ++it) {
        it->remove(); // the last one first, so the paths of the others stay right
    }
    CHECK(found.size() == 5 && document.query("[]").size() == 2 && document.query("a").size() == 2);
    CHECK(document.query("x").empty());
    auto faults = faults_of([&] { document.query("a b"); });
    CHECK(faults.size() == 1 && faults[0].start == 2 && faults[0].column == 3 && !faults[0].message.empty());
    CHECK(thrown([&] { document.query("\xff"); }) == KDL_NOT_UTF8);
    std::string many;
    for (int i = 0; i < 100; i++) {
        many += "a;";
    }
    CHECK(kdl::document(many).query("a").size() == 100); // more than the first buffer
}

// ---- Members ----

void documents() {
    static_assert(!std::is_copy_constructible_v<kdl::document> && !std::is_copy_assignable_v<kdl::document>);
    static_assert(std::is_nothrow_move_constructible_v<kdl::document>);
    static_assert(std::is_nothrow_move_assignable_v<kdl::document>);
    static_assert(std::is_nothrow_copy_constructible_v<kdl::error>);
    static_assert(!std::is_convertible_v<const char *, kdl::document>);
    kdl::document document("a 1");
    kdl::node node = document.nodes()[0];
    kdl::document moved(std::move(document));
    CHECK(moved.to_string() == "a 1" && node.name() == "a");         // the node is still there
    CHECK(thrown([&] { document.to_string(); }) == KDL_NO_DOCUMENT); // NOLINT: what a moved document does
    CHECK(thrown([&] { document.nodes(); }) == KDL_NO_DOCUMENT && thrown([&] { document.strip(); }) == KDL_NO_DOCUMENT);
    document = std::move(moved);
    document = kdl::document(" b");
    CHECK(document.to_string() == " b");
    kdl::document &same = document;
    document = std::move(same);
    CHECK(document.to_string() == " b");
    CHECK(thrown([] { kdl::document refused("\xff"); }) == KDL_NOT_UTF8);
    CHECK(kdl::document().to_string().empty() && kdl::document().nodes().empty());
    kdl::document built;
    built.add_node("a 1").add_node("b");
    CHECK(built.insert_node(0, "first").path() == kdl::path{0} && built.nodes().size() == 2);
    CHECK(built.at({1, 0}).name() == "b" && built.at({1, 0}).path() == (kdl::path{1, 0}));
    const kdl::document &constant = built;
    CHECK(constant.nodes()[0].name() == "first" && constant.query("b").size() == 1);
    std::vector<kdl::document> several;
    for (const char *text : {"a", "b", "c"}) {
        several.emplace_back(text);
    }
    CHECK(several[0].to_string() == "a" && several[2].to_string() == "c");
}

void nodes() {
    kdl::document document("(t)a 1 k=(\"\")2 3 k=4 { b; c {}; }\nd");
    kdl::nodes nodes = document.nodes();
    CHECK(nodes.size() == 2 && !nodes.empty() && thrown([&] { nodes[2]; }) == KDL_NOT_FOUND);
    kdl::node a = *nodes.begin(), d = *++nodes.begin();
    CHECK(a.type() == "t" && !d.type() && a.has_block() && !d.has_block() && d.start() == 34 && d.size() == 1);
    CHECK(a.start() == 0 && a.children().size() == 2 && d.children().empty() && a.children()[1].children().empty());
    CHECK(a.argument(1) == 3 && !a.argument(2) && a.property("k") == 4 && !a.property("") && !d.argument(0));
    kdl::entry k = a.entries()[1];
    CHECK(k.is_property() && !k.is_argument() && k.key() == "k" && k.type() == "" && k.value() == 2 && k.index() == 1);
    CHECK(k.start() == 7 && k.size() == 7);
    kdl::entry first = a.entries()[0];
    CHECK(first.is_argument() && !first.key() && !first.type() && thrown([&] { a.entries()[4]; }) == KDL_NOT_FOUND);
    auto it = a.entries().begin();
    auto old = it++;
    CHECK(old != it && (*old).index() == 0 && (*it).index() == 1);
    CHECK(the(a.find({"c"})).path() == (kdl::path{0, 1}) && !a.find({"d"}) && a.find({})->path() == a.path());
    a.remove_entry(1);
    CHECK(k.value() == 2); // a copy
    std::string name(1000, 'n');
    document.add_node(name + " \"" + name + "\"");
    CHECK(document.nodes()[2].name() == name && document.nodes()[2].argument(0) == name);
}

void missing_nodes() {
    kdl::document document("a 1 { b; }");
    kdl::node b = the(document.find({"a", "b"}));
    b.remove();
    CHECK(document.to_string() == "a 1 { }");
    CHECK(b.path() == (kdl::path{0, 0}));
    CHECK(thrown([&] { b.name(); }) == KDL_NOT_FOUND && thrown([&] { b.entries(); }) == KDL_NOT_FOUND);
    CHECK(thrown([&] { b.children(); }) == KDL_NOT_FOUND && thrown([&] { b.argument(0); }) == KDL_NOT_FOUND);
    CHECK(thrown([&] { b.property("k"); }) == KDL_NOT_FOUND && thrown([&] { b.find({"k"}); }) == KDL_NOT_FOUND);
    CHECK(thrown([&] { b.set_argument(0, 1); }) == KDL_NOT_FOUND);
    CHECK(thrown([&] { b.set_property("k", 1); }) == KDL_NOT_FOUND);
    CHECK(thrown([&] { b.remove_property("k"); }) == KDL_NOT_FOUND && thrown([&] { b.remove(); }) == KDL_NOT_FOUND);
    CHECK(thrown([&] { b.set_name("k"); }) == KDL_NOT_FOUND && thrown([&] { b.add_node("k"); }) == KDL_NOT_FOUND);
    for (const kdl::path &path : {kdl::path{}, kdl::path{1}, kdl::path{0, 0}, kdl::path{0, 0, 0}}) {
        CHECK(thrown([&] { document.at(path); }) == KDL_NOT_FOUND);
    }
}

void paths() {
    kdl::document document("a { b 1; c { b 2; }; }; b k=x \"l m\"; a { b 3 4; }");
    CHECK(the(document.find_path("a[1]/b")).path() == (kdl::path{2, 0}) && the(document.find_path("b")).name() == "b");
    CHECK(!document.find_path("a/x") && thrown([&] { document.find_path(""); }) == KDL_FAULTS);
    CHECK(document.get("a[1]/b#1") == 4 && document.get("b/@k") == "x" && document.get("b") == "l m");
    CHECK(!document.get("b#1") && !document.get("x") && thrown([&] { document.get("#"); }) == KDL_FAULTS);
    kdl::document deep("a{a{a{a{a{a{a{a{a{a 1}}}}}}}}}");
    CHECK(the(deep.find_path("a/a/a/a/a/a/a/a/a/a")).argument(0) == 1); // more than the first buffer
}

void edits() {
    kdl::document document("a 1 k=2 k=3 // c\nb {\n    c\n}\n");
    kdl::node a = document.nodes()[0], b = document.nodes()[1];
    a.set_argument(1, "x y");
    CHECK(document.to_string() == "a 1 k=2 k=3 \"x y\" // c\nb {\n    c\n}\n");
    CHECK(a.remove_property("k") == 2);
    a.set_argument(1, nullptr);
    a.set_argument(0, false);
    CHECK(document.to_string() == "a #false #null // c\nb {\n    c\n}\n");
    a.set_key(1, "k y");
    a.set_type(0, "u8");
    a.set_type("t");
    a.set_name("a b");
    CHECK(document.to_string() == "(t)\"a b\" (u8)#false \"k y\"=#null // c\nb {\n    c\n}\n");
    a.set_key(1, std::nullopt);
    a.set_type(0, std::nullopt);
    a.set_type(std::nullopt);
    a.set_name("a");
    a.insert_entry(2, "(u16)0x10");
    a.insert_entry(0, "k=(t)1");
    CHECK(document.to_string() == "a k=(t)1 #false #null (u16)16 // c\nb {\n    c\n}\n");
    b.insert_node(1, "    d 1\n");
    b.insert_node(0, "\n    e;");
    CHECK(document.to_string() == "a k=(t)1 #false #null (u16)16 // c\nb {\n    e;\n    c\n    d 1\n}\n");
}

void refused_edits() {
    const char *const text = "a 1 { b; }";
    kdl::document document(text);
    kdl::node a = document.nodes()[0];
    auto faults = faults_of([&] { a.set_value(0, "\n  #treu"); });
    CHECK(!faults.empty());
    faults = faults_of([&] { a.set_value(0, "#treu"); });
    CHECK(faults.size() == 1 && faults[0].start == 0 && faults[0].size == 5 && faults[0].message == "Expected keyword");
    CHECK(faults[0].line == 1 && faults[0].column == 1 && faults[0].label.empty());
    faults = faults_of([&] { document.insert_node(0, "\nx 1\n  #y"); });
    CHECK(!faults.empty() && faults[0].line == 3);
    CHECK(thrown([&] { a.set_value(0, "k=1"); }) == KDL_FAULTS && thrown([&] { a.set_value(0, ""); }) == KDL_FAULTS);
    CHECK(thrown([&] { a.set_value(1, "1"); }) == KDL_NOT_FOUND &&
          thrown([&] { a.set_argument(2, 1); }) == KDL_NOT_FOUND);
    CHECK(thrown([&] { a.insert_entry(0, "a b"); }) == KDL_FAULTS &&
          thrown([&] { a.insert_entry(9, "a"); }) == KDL_NOT_FOUND);
    CHECK(thrown([&] { a.insert_node(0, "}"); }) == KDL_FAULTS &&
          thrown([&] { a.insert_node(2, "c"); }) == KDL_NOT_FOUND);
    CHECK(thrown([&] { a.remove_entry(1); }) == KDL_NOT_FOUND && thrown([&] { a.set_type(1, "t"); }) == KDL_NOT_FOUND);
    CHECK(thrown([&] { a.set_type(SIZE_MAX, "t"); }) == KDL_NOT_FOUND);
    CHECK(thrown([&] { a.set_name("\xff"); }) == KDL_NOT_UTF8 &&
          thrown([&] { a.set_property("\xff", 1); }) == KDL_NOT_UTF8);
    CHECK(thrown([&] { a.set_argument(0, "\xC2\x05"); }) == KDL_NOT_UTF8);
    CHECK(thrown([&] { a.set_argument(0, "\xE2\x80"); }) == KDL_NOT_UTF8);
    CHECK(document.to_string() == text);
}

void values() {
    kdl::document document(
        "v \"a\\u{0}b\" 9223372036854775807 9223372036854775808 1_0.5e+1 #inf #-inf #nan #false #null "
        "1e999 -1e999 -9223372036854775809 18446744073709551616 0x1_0");
    kdl::node v = document.nodes()[0];
    auto at = [&](std::size_t i) { return v.argument(i).value(); };
    CHECK(at(0).as<std::string>() == std::string("a\0b", 3) && !at(0).try_as<double>() && !at(0).try_as<int>());
    CHECK(at(1).as<std::int64_t>() == INT64_MAX && at(1).as<double>() == 9223372036854775807.0);
    CHECK(!at(1).try_as<int>() && at(1).as<std::uint64_t>() == static_cast<std::uint64_t>(INT64_MAX));
    CHECK(at(2).is<kdl::large_integer>() && at(2).as<double>() == 9223372036854775808.0);
    CHECK(at(2).as<std::uint64_t>() == 9223372036854775808U && !at(2).try_as<std::int64_t>() &&
          !at(2).try_as<unsigned>());
    CHECK(at(2).as<kdl::large_integer>().text == "9223372036854775808" && at(2) == 9223372036854775808U);
    CHECK(at(3).as<double>() == 105.0 && at(3).as<kdl::float_text>().text == "10.5e+1" && at(3).as<float>() == 105.0F);
    CHECK(at(3).is_number() && !at(3).try_as<std::int64_t>() && !at(3).try_as<bool>());
    CHECK(std::isinf(at(4).as<double>()) && at(5).as<double>() < 0 && std::isnan(at(6).as<double>()));
    CHECK(!at(7).as<bool>() && at(8).is_null() && !at(8).try_as<bool>() && at(8) == nullptr && !at(7).is_number());
    CHECK(at(9).as<double>() > 1e308 && std::isinf(at(10).as<double>()) && at(10).as<double>() < 0);
    CHECK(!at(11).try_as<std::uint64_t>() && !at(12).try_as<std::uint64_t>() &&
          at(12).as<double>() == 18446744073709551616.0);
    CHECK(at(13).as<std::int8_t>() == 16 && at(13).as<unsigned char>() == 16 && at(13) != at(1));
    CHECK(kdl::value(-129).try_as<std::int8_t>() == std::nullopt && kdl::value(-128).as<std::int8_t>() == -128);
    CHECK(!kdl::value(-1).try_as<unsigned>() && !kdl::value(256).try_as<std::uint8_t>());
    bool is_caught = false;
    try {
        at(8).as<int>();
    } catch (const kdl::value_error &error) {
        is_caught = std::string(error.what()).find("#null") != std::string::npos;
    }
    const kdl::value seventh = at(7);
    CHECK(is_caught && *std::get_if<bool>(&seventh.data()) == false);
}

void spellings() {
    CHECK(kdl::value().to_kdl() == "#null" && kdl::value(true).to_kdl() == "#true" && kdl::value(-7).to_kdl() == "-7");
    CHECK(kdl::value(UINT64_MAX).to_kdl() == "18446744073709551615" &&
          kdl::value(INT64_MIN).to_kdl() == "-9223372036854775808");
    CHECK(kdl::value(1.0).to_kdl() == "1.0" && kdl::value(-0.0).to_kdl() == "-0.0" &&
          kdl::value(0.1).to_kdl() == "0.1");
    CHECK(kdl::value(0.1F).to_kdl() == "0.1" && kdl::value(1e300).to_kdl() == "1e+300" &&
          kdl::value(8080.0).to_kdl() == "8080.0");
    CHECK(kdl::value(0.1 + 0.2).as<double>() == 0.1 + 0.2 && kdl::value(5e-324).as<double>() == 5e-324);
    CHECK(kdl::value(INFINITY).to_kdl() == "#inf" && kdl::value(-INFINITY).to_kdl() == "#-inf");
    CHECK(kdl::value(NAN).to_kdl() == "#nan" && kdl::value("a").to_kdl() == "\"a\"");
    std::string text = "b";
    CHECK(kdl::value(text) == "b" && kdl::value(std::string_view("b")) == text && kdl::value(std::move(text)) == "b");
    CHECK(kdl::value(static_cast<const char *>("c")).is<std::string>() && kdl::quoted("") == "\"\"");
    CHECK(kdl::quoted("a\"\\\n\t\x1b\xC2\x85\xE2\x80\xA8\xC3\xA9") ==
          "\"a\\\"\\\\\\n\\t\\u{1b}\\u{85}\\u{2028}\xC3\xA9\"");
    kdl::document document("a 1");
    kdl::node a = document.nodes()[0];
    for (double number : {0.0, -1.5, 1e22, 123456789.125, 1.7976931348623157e308, 2.2250738585072014e-308, 1e-7}) {
        a.set_argument(0, number);
        CHECK(a.argument(0)->is<kdl::float_text>() && a.argument(0)->as<double>() == number);
    }
    for (const char *locale : {"de_DE.UTF-8", "fr_FR.UTF-8", "ps_AF.UTF-8"}) {
        if (std::setlocale(LC_NUMERIC, locale) != nullptr) {
            CHECK(kdl::value(1.5).to_kdl() == "1.5" && kdl::value(2.5F).as<double>() == 2.5);
        }
    }
    std::setlocale(LC_NUMERIC, "C");
}

std::string utf8(unsigned code) {
    auto tail = [&](unsigned bits) { return static_cast<char>(0x80U | (code >> bits & 63U)); };
    if (code < 0x80) {
        return {static_cast<char>(code)};
    }
    if (code < 0x800) {
        return {static_cast<char>(0xC0U | code >> 6), tail(0)};
    }
    if (code < 0x10000) {
        return {static_cast<char>(0xE0U | code >> 12), tail(6), tail(0)};
    }
    return {static_cast<char>(0xF0U | code >> 18), tail(12), tail(6), tail(0)};
}

/// Each character, between quotes, is read as itself; and so it is as a name, a key and a type.
void characters() {
    kdl::document document("a x");
    kdl::node a = document.nodes()[0];
    for (unsigned code = 0; code < 0x110000; code += code < 0x3000 ? 1 : 0x101) {
        if (code < 0xD800 || code >= 0xE000) {
            std::string text = "<" + utf8(code) + ">";
            a.set_argument(0, text);
            CHECK(a.argument(0) == text);
        }
    }
    a.set_argument(0, utf8(0xFEFF) + utf8(0x10FFFF) + utf8(0xFFFF));
    CHECK(a.argument(0) == utf8(0xFEFF) + utf8(0x10FFFF) + utf8(0xFFFF));
    a.set_property("k \"\n", 1);
    a.set_type("t \xE2\x80\xAE");
    a.set_name("");
    kdl::document again(document.to_string());
    kdl::node node = again.nodes()[0];
    CHECK(node.property("k \"\n") == 1 && node.type() == "t \xE2\x80\xAE" && node.name().empty());
}

/// The lines and columns of faults are those of kdl_position.
void positions() {
    const std::string text = "\xEF\xBB\xBF"
                             "a\r\nb\rc\nd\x0B"
                             "e\x0C"
                             "f\xC2\x85g\xE2\x80\xA8h\xE2\x80\xA9i\xF0\x9F\x98\x80j\r";
    std::vector<kdl::fault> faults;
    for (std::size_t at = text.size() + 1; at-- > 0;) {
        if (at == text.size() || (static_cast<unsigned char>(text[at]) & 0xC0U) != 0x80U) {
            faults.emplace_back();
            faults.back().start = at;
        }
    }
    kdl::detail::set_positions(text, faults);
    for (const kdl::fault &fault : faults) {
        kdl::position at = kdl::position_of(text, fault.start);
        CHECK(at.line == fault.line && at.column == fault.column);
    }
    CHECK(faults.front().line == 10 && thrown([] { kdl::position_of("a", 2); }) == KDL_NOT_FOUND);
    CHECK(thrown([] { kdl::position_of("\xC3\xA9", 1); }) == KDL_NOT_FOUND &&
          thrown([] { kdl::faults("\xff"); }) == KDL_NOT_UTF8);
}

void deep() {
    const std::size_t depth = 100000;
    std::string text;
    for (std::size_t i = 0; i < depth; i++) {
        text += "a{";
    }
    text += "b" + std::string(depth, '}');
    kdl::document document(text);
    std::vector<kdl::node> found = document.query("b");
    CHECK(found.size() == 1 && found[0].path() == kdl::path(depth + 1) && found[0].name() == "b");
    CHECK(document.to_string() == text && document.nodes().size() == 1);
}

/// Each allocation of C++ fails in turn: the call throws std::bad_alloc, and a failed edit changes
/// nothing. libkdl has its own allocations, which oom.c lets fail.
void allocations_fail() {
    const std::string text = "a 1 k=2 { b \"" + std::string(100, 'x') + "\"; }\nlonger-than-sixteen-bytes";
    const std::string name(50, 'n');
    auto refused = [&](auto call, bool is_edit) {
        for (long room = 0;; room++) {
            kdl::document document(text);
            kdl::node a = document.nodes()[0];
            allocations = room;
            is_limited = true;
            bool is_done = true;
            try {
                call(document, a);
            } catch (const std::bad_alloc &) {
                is_done = false;
            } catch (const kdl::error &) {
            }
            is_limited = false;
            CHECK((is_done && is_edit) || document.to_string() == text);
            if (is_done) {
                CHECK(room > 0 && room < 200);
                return;
            }
        }
    };
    using document = kdl::document;
    refused([&](document &, kdl::node &) { document other(text); }, false);
    refused([&](document &, kdl::node &) { document other("a }\n#x"); }, false);
    refused([&](document &of, kdl::node &) { of.to_string(); }, false);
    refused([&](document &of, kdl::node &) { of.query("b"); }, false);
    refused([&](document &of, kdl::node &) { of.query("b b"); }, false);
    refused([&](document &, kdl::node &a) { (*a.children().begin()).argument(0); }, false);
    refused([&](document &, kdl::node &a) { a.set_argument(0, name); }, true);
    refused([&](document &, kdl::node &a) { a.set_property(name, name); }, true);
    refused([&](document &, kdl::node &a) { a.add_node(name); }, true);
    refused([&](document &of, kdl::node &) { of.add_node(name); }, true);
    refused([&](document &, kdl::node &a) { a.set_value(0, "#treu"); }, false);
    try {
        kdl::detail::check(KDL_OUT_OF_MEMORY);
        CHECK(false);
    } catch (const std::bad_alloc &) {
    }
}

} // namespace

int main() {
    round_trip();
    look_at_values();
    iterate();
    change_values();
    add_and_remove();
    errors_with_places();
    lay_out();
    lay_out_as_asked();
    query();
    documents();
    nodes();
    missing_nodes();
    paths();
    edits();
    refused_edits();
    values();
    spellings();
    characters();
    positions();
    deep();
    allocations_fail();
    return 0;
}
