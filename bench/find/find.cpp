// The same list as `cfdbench find` by the same method: find FOLDER WIDTH SUPPORT. It reads FOLDER/t.csv, whose cells are
// plain words; its first line names the attributes. Rows that agree on attributes have one leader, the first of them, and
// each row has the next one with its leader. The classes of one attribute more come from those before: in one pass over the
// rows where each pair of a leader and an id finds a slot, else class by class.
// A left side of which a part determines A is skipped for A, and so are rows for which a part settles A. Where parts
// determine all attributes outside it, the rows aren't looked at. What is known of a left side is kept for those that it is
// a part of. Before the search it is told of many attributes that too many are found, where pairs of rows tell it.
#include <algorithm>
#include <cstdint>
#include <cstdio>
#include <cstdlib>
#include <fstream>
#include <iostream>
#include <map>
#include <sstream>
#include <string>
#include <string_view>
#include <unordered_map>
#include <vector>

using Row = uint32_t;
using Rows = std::vector<Row>;
using Side = std::vector<uint32_t>;

static const size_t LONGEST_CONSTANT = 1024;
static const size_t MOST = 100000;
static const size_t MOST_KEPT = 256;

struct Table {
    std::string bytes;
    std::vector<std::string> names;
    std::vector<std::string_view> cells;
    std::vector<Rows> columns;
    Row rows = 0;
    std::string_view cell(Row r, uint32_t attr) const { return cells[size_t(r) * names.size() + attr]; }
};

struct Classes { Rows leaders, nexts; };
struct Settled { bool all = false; std::vector<uint8_t> flags; };
struct Facts { Side x; std::vector<Settled> settled; };
struct Candidate { uint32_t a, side; Row row; };

static Table read_table(const std::string &path) {
    Table table;
    std::ifstream in(path, std::ios::binary);
    std::stringstream all;
    all << in.rdbuf();
    table.bytes = all.str();
    std::string_view text = table.bytes;
    bool head = true;
    for (size_t at = 0; at < text.size();) {
        size_t end = text.find('\n', at);
        if (end == std::string_view::npos) end = text.size();
        for (size_t from = at; from <= end;) {
            size_t comma = std::min(text.find(',', from), end);
            if (head) table.names.emplace_back(text.substr(from, comma - from));
            else table.cells.push_back(text.substr(from, comma - from));
            from = comma + 1;
        }
        head = false;
        at = end + 1;
    }
    table.rows = Row(table.cells.size() / table.names.size());
    for (uint32_t attr = 0; attr < table.names.size(); attr++) {
        std::unordered_map<std::string_view, Row> pool;
        Rows ids(table.rows);
        for (Row r = 0; r < table.rows; r++) ids[r] = pool.emplace(table.cell(r, attr), Row(pool.size())).first->second;
        table.columns.push_back(std::move(ids));
    }
    return table;
}

static Rows nexts_of(const Rows &leaders) {
    Row n = Row(leaders.size());
    Rows nexts(n), fronts(n, n);
    for (Row r = n; r-- > 0;) {
        nexts[r] = fronts[leaders[r]];
        fronts[leaders[r]] = r;
    }
    return nexts;
}

static Classes all_rows(Row n) {
    Rows leaders(n, 0);
    Rows nexts = nexts_of(leaders);
    return {std::move(leaders), std::move(nexts)};
}

static bool bases_of(const Rows &leaders, const Rows &ids, Rows &bases) {
    Row n = Row(ids.size()), width = 0;
    for (Row id : ids) width = std::max(width, id + 1);
    bases.assign(n, 0);
    uint64_t next = 0;
    for (Row r = 0; r < n; r++) {
        if (leaders[r] != r) continue;
        bases[r] = Row(next);
        next += width;
        if (next > n) return false;
    }
    return true;
}

static bool firsts_in_slots(const Rows &leaders, const Rows &ids, Rows &firsts) {
    Row n = Row(ids.size());
    Rows bases;
    if (!bases_of(leaders, ids, bases)) return false;
    Rows marks(n, n);
    for (Row r = 0; r < n; r++) {
        Row &mark = marks[bases[leaders[r]] + ids[r]];
        if (mark == n) mark = r;
        firsts[r] = mark;
    }
    return true;
}

static void firsts_in_classes(const Classes &classes, const Rows &ids, Rows &firsts) {
    Row n = Row(ids.size());
    Rows marks(n, n);
    for (Row first = 0; first < n; first++) {
        if (classes.leaders[first] != first) continue;
        for (Row r = first; r < n; r = classes.nexts[r]) {
            Row mark = marks[ids[r]];
            if (mark < n && classes.leaders[mark] == first) firsts[r] = mark;
            else firsts[r] = marks[ids[r]] = r;
        }
    }
}

static Classes with_attr(const Classes &classes, const Rows &ids) {
    Rows firsts(ids.size());
    if (!firsts_in_slots(classes.leaders, ids, firsts)) firsts_in_classes(classes, ids, firsts);
    Rows nexts = nexts_of(firsts);
    return {std::move(firsts), std::move(nexts)};
}

static Classes grouped(const Table &table, const Side &x) {
    Classes classes = all_rows(table.rows);
    for (uint32_t attr : x) classes = with_attr(classes, table.columns[attr]);
    return classes;
}

static Rows leads_of(const Classes &classes, size_t support) {
    Row n = Row(classes.leaders.size());
    Rows sizes(n, 0), leads;
    for (Row r = 0; r < n; r++) sizes[classes.leaders[r]]++;
    for (Row r = 0; r < n; r++)
        if (classes.leaders[r] == r && sizes[r] >= support) leads.push_back(r);
    return leads;
}

static bool are_alike(const Rows &leaders, const Rows &ids) {
    for (Row r = 0; r < ids.size(); r++)
        if (ids[r] != ids[leaders[r]]) return false;
    return true;
}

static bool is_alike(const Classes &classes, const Rows &ids, Row first) {
    Row id = ids[first];
    for (Row r = first; r < ids.size(); r = classes.nexts[r])
        if (ids[r] != id) return false;
    return true;
}

static Settled settled_at(const Classes &classes, const Rows &leads, const Rows &ids) {
    Settled settled;
    settled.all = are_alike(classes.leaders, ids);
    if (settled.all) return settled;
    for (Row first : leads) {
        if (!is_alike(classes, ids, first)) continue;
        if (settled.flags.empty()) settled.flags.assign(ids.size(), 0);
        for (Row r = first; r < ids.size(); r = classes.nexts[r]) settled.flags[r] = 1;
    }
    return settled;
}

static bool says(const Settled &settled, Row r) { return settled.all || (!settled.flags.empty() && settled.flags[r]); }

using Store = std::map<Side, Facts>;
using Parts = std::vector<const Facts *>;

static bool has(const Side &x, uint32_t a) { return std::find(x.begin(), x.end(), a) != x.end(); }

static bool is_any_all(const Parts &parts, uint32_t a) {
    return std::any_of(parts.begin(), parts.end(), [&](const Facts *part) { return part->settled[a].all; });
}

static Facts facts_of(const Table &table, const Classes &classes, const Rows &leads, const Side &x, const Parts &parts) {
    Facts facts{x, {}};
    for (uint32_t a = 0; a < table.columns.size(); a++)
        if (is_any_all(parts, a)) facts.settled.push_back({true, {}});
        else facts.settled.push_back(settled_at(classes, leads, table.columns[a]));
    return facts;
}

static std::vector<Side> proper_parts(const Side &x) {
    std::vector<Side> parts;
    for (uint32_t taken = 0; taken + 1 < (1u << x.size()); taken++) {
        Side part;
        for (size_t i = 0; i < x.size(); i++)
            if (taken >> i & 1) part.push_back(x[i]);
        parts.push_back(part);
    }
    return parts;
}

static std::vector<Side> left_sides(uint32_t attrs, size_t width) {
    std::vector<Side> sides{{}}, level{{}};
    for (size_t size = 0; size < width; size++) {
        std::vector<Side> longer;
        for (const Side &side : level)
            for (uint32_t attr = side.empty() ? 0 : side.back() + 1; attr < attrs; attr++) {
                longer.push_back(side);
                longer.back().push_back(attr);
            }
        sides.insert(sides.end(), longer.begin(), longer.end());
        level = longer;
    }
    return sides;
}

static bool is_short(const Table &table, Row r, const Side &x, uint32_t a) {
    for (uint32_t attr : x)
        if (table.cell(r, attr).size() > LONGEST_CONSTANT) return false;
    return table.cell(r, a).size() <= LONGEST_CONSTANT;
}

static Parts known_parts(const Store &store, const Side &x) {
    Parts parts;
    for (const Side &part : proper_parts(x)) {
        auto at = store.find(part);
        if (at != store.end()) parts.push_back(&at->second);
    }
    return parts;
}

static Parts all_parts(const Table &table, size_t support, Store &store, const Side &x) {
    Parts parts;
    for (const Side &part : proper_parts(x)) {
        auto at = store.find(part);
        if (at == store.end()) {
            Classes classes = grouped(table, part);
            Facts facts = facts_of(table, classes, leads_of(classes, support), part, {});
            at = store.emplace(part, std::move(facts)).first;
        }
        parts.push_back(&at->second);
    }
    return parts;
}

static bool is_closed(const Table &table, const Parts &known, const Side &x) {
    for (uint32_t a = 0; a < table.columns.size(); a++)
        if (!has(x, a) && !is_any_all(known, a)) return false;
    return true;
}

static void push_found_on(const Table &table, const Side &x, uint32_t number, const Rows &leads, const Facts &facts,
                          const Parts &parts, std::vector<Candidate> &found) {
    for (uint32_t a = 0; a < table.columns.size() && found.size() <= MOST; a++) {
        if (has(x, a) || is_any_all(parts, a)) continue;
        if (facts.settled[a].all) found.push_back({a, number, table.rows});
        for (Row r : leads)
            if (says(facts.settled[a], r)
                && !std::any_of(parts.begin(), parts.end(), [&](const Facts *part) { return says(part->settled[a], r); })
                && is_short(table, r, x, a))
                found.push_back({a, number, r});
    }
}

// ---- what is told ahead: pairs of rows that agree on one attribute, and those of them that agree on two, tell what three
// attributes determine where they are few

struct Pair { size_t one, other; };
struct Pairs { uint32_t attr; std::vector<Pair> list; bool whole; };
struct Sample { uint32_t one, other; std::vector<Pair> list; bool whole; std::vector<uint8_t> apart; };
static const size_t MOST_PAIRS = 4000000, MOST_OF_TWO = 1000;

static Pairs pairs_at(const Table &table, uint32_t attr, size_t most) {
    Pairs pairs{attr, {}, true};
    Classes classes = with_attr(all_rows(table.rows), table.columns[attr]);
    for (Row r = 0; r < table.rows; r++)
        for (Row s = classes.nexts[r]; s < table.rows; s = classes.nexts[s]) {
            if (pairs.list.size() >= most) { pairs.whole = false; return pairs; }
            pairs.list.push_back({r, s});
        }
    return pairs;
}

static std::vector<Pair> same_pairs(const std::vector<Pair> &pairs, const Rows &ids) {
    std::vector<Pair> same;
    for (const Pair &pair : pairs)
        if (ids[pair.one] == ids[pair.other]) same.push_back(pair);
    return same;
}

static bool is_apart(const std::vector<Pair> &pairs, const Rows &ids) {
    auto is_two = [&](const Pair &pair) { return ids[pair.one] != ids[pair.other]; };
    return std::any_of(pairs.begin(), pairs.end(), is_two);
}

static Sample sample_of(const Table &table, const Pairs &one, const Pairs &other) {
    const Pairs &from = !one.whole && other.whole ? other : one;
    uint32_t by = !one.whole && other.whole ? one.attr : other.attr;
    Sample sample{one.attr, other.attr, same_pairs(from.list, table.columns[by]), from.whole, {}};
    for (const Rows &ids : table.columns) sample.apart.push_back(is_apart(sample.list, ids));
    if (sample.list.size() > MOST_OF_TWO) sample.whole = false;
    if (!sample.whole) std::vector<Pair>().swap(sample.list);
    return sample;
}

static bool are_surely_more(const Table &table, const std::vector<Side> &sides) {
    size_t attrs = table.columns.size(), room = MOST;
    if (sides.back().size() != 3 || sides.size() * attrs <= MOST) return false;
    std::vector<Pairs> pairs;
    for (uint32_t attr = 0; attr < attrs; attr++) pairs.push_back(pairs_at(table, attr, MOST_PAIRS / attrs));
    auto is_near_key = [](const Pairs &pairs) { return pairs.whole && !pairs.list.empty(); };
    if (std::none_of(pairs.begin(), pairs.end(), is_near_key)) return false;
    std::vector<Sample> samples(attrs * attrs);
    for (uint32_t one = 0; one < attrs; one++)
        for (uint32_t other = one + 1; other < attrs; other++)
            samples[one * attrs + other] = sample_of(table, pairs[one], pairs[other]);
    for (const Side &x : sides) {
        if (x.size() != 3) continue;
        const Sample &front = samples[x[0] * attrs + x[1]];
        const Sample &ends = samples[x[0] * attrs + x[2]];
        const Sample &back = samples[x[1] * attrs + x[2]];
        if (!front.whole && !ends.whole && !back.whole) continue;
        std::vector<Pair> rest = front.whole ? same_pairs(front.list, table.columns[x[2]])
            : ends.whole ? same_pairs(ends.list, table.columns[x[1]]) : same_pairs(back.list, table.columns[x[0]]);
        for (uint32_t a = 0; a < attrs; a++)
            if (!has(x, a) && front.apart[a] && ends.apart[a] && back.apart[a] && !is_apart(rest, table.columns[a])
                && room-- == 0)
                return true;
    }
    return false;
}

// All that are found, or one more than MOST at least.
static std::vector<Candidate> all_found(const Table &table, size_t support, const std::vector<Side> &sides) {
    if (are_surely_more(table, sides)) return std::vector<Candidate>(MOST + 1);
    std::vector<Candidate> found;
    Store store;
    Side front;
    Classes front_classes = all_rows(table.rows);
    for (uint32_t number = 0; number < sides.size() && found.size() <= MOST; number++) {
        const Side &x = sides[number];
        bool kept = x.size() < sides.back().size() && store.size() < MOST_KEPT;
        if (is_closed(table, known_parts(store, x), x)) {
            if (kept) store.emplace(x, Facts{x, std::vector<Settled>(table.columns.size(), Settled{true, {}})});
            continue;
        }
        Parts parts = all_parts(table, support, store, x);
        Classes classes;
        if (x.empty()) {
            classes = all_rows(table.rows);
        } else {
            Side before(x.begin(), x.end() - 1);
            if (before != front) {
                front_classes = grouped(table, before);
                front = before;
            }
            classes = with_attr(front_classes, table.columns[x.back()]);
        }
        Rows leads = leads_of(classes, support);
        Facts facts = facts_of(table, classes, leads, x, parts);
        push_found_on(table, x, number, leads, facts, parts, found);
        if (kept) store.emplace(x, std::move(facts));
    }
    return found;
}

static void sort_found(const Table &table, const std::vector<Side> &sides, std::vector<Candidate> &found) {
    std::sort(found.begin(), found.end(), [&](const Candidate &one, const Candidate &other) {
        if (one.a != other.a) return one.a < other.a;
        if (one.side != other.side) return one.side < other.side;
        bool plain = one.row == table.rows, too = other.row == table.rows;
        if (plain || too) return plain && !too;
        for (uint32_t attr : sides[one.side]) {
            int order = table.cell(one.row, attr).compare(table.cell(other.row, attr));
            if (order != 0) return order < 0;
        }
        return false;
    });
}

static void push_cell(std::string &out, const Table &table, Row r, uint32_t attr) {
    if (r == table.rows) out += "_";
    else { out += '\''; out += table.cell(r, attr); out += '\''; }
}

int main(int argc, char **argv) {
    if (argc != 4) return 1;
    Table table = read_table(std::string(argv[1]) + "/t.csv");
    std::vector<Side> sides = left_sides(uint32_t(table.names.size()), strtoul(argv[2], nullptr, 10));
    std::vector<Candidate> found = all_found(table, strtoul(argv[3], nullptr, 10), sides);
    if (found.size() > MOST) {
        puts("too many");
        return 0;
    }
    sort_found(table, sides, found);
    std::string out;
    for (size_t n = 0; n < found.size(); n++) {
        const Candidate &c = found[n];
        const Side &x = sides[c.side];
        out += "cfd d" + std::to_string(n + 1) + " t: [";
        for (size_t i = 0; i < x.size(); i++) out += (i ? ", " : "") + table.names[x[i]];
        out += "] -> [" + table.names[c.a] + "]\nrow ";
        for (size_t i = 0; i < x.size(); i++) {
            if (i) out += ", ";
            push_cell(out, table, c.row, x[i]);
        }
        out += x.empty() ? "|| " : " || ";
        push_cell(out, table, c.row, c.a);
        out += '\n';
    }
    out += "# found " + std::to_string(found.size()) + "\n";
    fwrite(out.data(), 1, out.size(), stdout);
}
