// The scheme of the board in plain C++, to compare its speed with: the live times, the day network, the search for each rank in
// turn, and the marks of the places. Nothing of it is proved.
//     g++ -std=c++17 -O3 -march=native -o plain tools/bench/plain.cpp; ./plain RANKING SECONDS < FILE.day
// RANKING is 0 (depot order) or 1 (period order). It prints the figures and the marks, and the processor time of one whole quote
// and of one plan for all owed, as a hold looks for. There are four programs in it. The search is made afresh after each round of
// sending more along its tree and along all other ways on its levels, as the board's is; or it is made once, and its tree mended
// after each push. The arcs are linked at both of their ends, as the board's are, or lie side by side, twice: at the node that
// each leaves, and turned round at the one it enters. Only the first program, afresh and linked, lays out arcs of capacity 0,
// since the board does.
#include "day_file.h"

constexpr int SOURCE = 1536, OWED = 1537, ALL_OWED = 1553, NODES = 1554, MOST_ARCS = 96 * 48 + 16 * 49;

// --- two ways to lay out the residual network. A way (`via`) is an arc taken along or taken back. ---

// Way 2e is arc e taken along, 2e + 1 the same taken back. A link is one more than the number of an arc, and 0 for none.
struct Linked {
    struct Arc { uint16_t tail, head; uint32_t capacity; };
    struct First { uint16_t out, in; };
    size_t count = 0;
    std::vector<Arc> arcs = std::vector<Arc>(MOST_ARCS);
    std::vector<uint16_t> next_out = std::vector<uint16_t>(MOST_ARCS), next_in = next_out;
    std::vector<uint32_t> load = std::vector<uint32_t>(MOST_ARCS);
    std::vector<First> first = std::vector<First>(NODES);

    void clear() {
        count = 0;
        std::fill(first.begin(), first.end(), First{0, 0});
    }
    void add(int tail, int head, uint32_t capacity) {
        arcs[count] = {(uint16_t)tail, (uint16_t)head, capacity};
        next_out[count] = first[tail].out;
        next_in[count++] = first[head].in;
        first[tail].out = first[head].in = count;
    }
    void finish() { std::fill(load.begin(), load.begin() + count, 0); }
    int from(int via) const { return via % 2 ? arcs[via / 2].head : arcs[via / 2].tail; }
    uint32_t room(int via) const { return via % 2 ? load[via / 2] : arcs[via / 2].capacity - load[via / 2]; }
    void push(int via, uint32_t amount) { load[via / 2] += via % 2 ? -amount : amount; }
    // Calls take(w, way to w) for each way out of the node.
    template <class Take> void each_way(int node, Take take) const {
        for (int at = first[node].out; at; at = next_out[at - 1]) take(arcs[at - 1].head, 2 * (at - 1));
        for (int at = first[node].in; at; at = next_in[at - 1]) take(arcs[at - 1].tail, 2 * (at - 1) + 1);
    }
    // Calls take(u, way from u) for each way with room into the node, until it answers true or no step is left: one for each arc.
    template <class Take> bool any_into(int node, int64_t &steps, Take take) const {
        for (int at = first[node].in; at; at = next_in[at - 1]) {
            if (!steps) return false;
            steps--;
            if (load[at - 1] < arcs[at - 1].capacity && take(arcs[at - 1].tail, 2 * (at - 1))) return true;
        }
        for (int at = first[node].out; at; at = next_out[at - 1]) {
            if (!steps) return false;
            steps--;
            if (load[at - 1] > 0 && take(arcs[at - 1].head, 2 * (at - 1) + 1)) return true;
        }
        return false;
    }
};

// The ways out of a node lie side by side, each with its room and the number of the way back.
struct Halves {
    struct Half { uint16_t to, back; uint32_t room; };
    struct Arc { uint16_t tail, head; uint32_t capacity; };
    std::vector<Arc> arcs;
    std::vector<Half> halves = std::vector<Half>(2 * MOST_ARCS);
    std::vector<uint16_t> first = std::vector<uint16_t>(NODES + 1), next = std::vector<uint16_t>(NODES + 1);

    void clear() { arcs.clear(); }
    void add(int tail, int head, uint32_t capacity) { arcs.push_back({(uint16_t)tail, (uint16_t)head, capacity}); }
    void finish() {
        std::fill(first.begin(), first.end(), 0);
        for (auto &a : arcs) { first[a.tail + 1]++; first[a.head + 1]++; }
        for (int v = 0; v < NODES; v++) first[v + 1] += first[v];
        next = first;
        // The last arc first, as the links go.
        for (size_t e = arcs.size(); e--;) {
            auto [tail, head, capacity] = arcs[e];
            uint16_t along = next[tail]++, back = next[head]++;
            halves[along] = {head, back, capacity};
            halves[back] = {tail, along, 0};
        }
    }
    int from(int via) const { return halves[halves[via].back].to; }
    uint32_t room(int via) const { return halves[via].room; }
    void push(int via, uint32_t amount) {
        halves[via].room -= amount;
        halves[halves[via].back].room += amount;
    }
    template <class Take> void each_way(int node, Take take) const {
        for (int h = first[node]; h < first[node + 1]; h++) take(halves[h].to, h);
    }
    template <class Take> bool any_into(int node, int64_t &steps, Take take) const {
        for (int h = first[node]; h < first[node + 1]; h++) {
            if (!steps) return false;
            steps--;
            if (halves[halves[h].back].room && take(halves[h].to, halves[h].back)) return true;
        }
        return false;
    }
};

// --- the board ---

struct Visit { uint16_t level, via; };   // level 0 where a node is not reached, and 1 at the source; the way by which it was

template <class Net, bool MENDS, bool ALL_ARCS> struct Board {
    const Day &day;
    Net net;
    bool by_depot = false;
    int ranks = 0, searches = 0;   // how often the last quote or plan searched the network
    int64_t patience = 0;          // how many steps may still be made to find other ways before the next search
    int64_t ever = INT64_MAX;      // as many steps as it takes
    int64_t steps = 0;             // how many nodes and ways the last flood went through
    uint16_t reached = 0;          // how often a node was reached since the last search
    std::vector<int16_t> rank = std::vector<int16_t>(NODES);
    std::vector<std::vector<uint16_t>> by_rank = std::vector<std::vector<uint16_t>>(49);
    std::vector<uint16_t> mark = std::vector<uint16_t>(NODES), queue = mark, lost, forgotten;
    std::vector<Visit> visit = std::vector<Visit>(NODES);
    std::vector<uint8_t> shut = std::vector<uint8_t>(NODES);   // which nodes are not to be gone through until the next search
    std::vector<uint64_t> figure = std::vector<uint64_t>(49);
    std::vector<uint8_t> told;   // the mark of yard y in period t at y * (horizon + 1) + t

    explicit Board(const Day &day) : day(day), told(YARDS * (day.horizon + 1)) {}

    // --- the day network ---

    int node(int yard, int period) const { return yard == day.origin ? SOURCE : yard * PERIODS + period; }
    void add(int tail, int head, uint32_t capacity) {
        if (ALL_ARCS || capacity) net.add(tail, head, capacity);
    }
    void set_rank(int node, int r) {
        rank[node] = r;
        if (MENDS) by_rank[r].push_back(node);
    }
    void set_ranks() {
        std::fill(rank.begin(), rank.end(), -1);
        for (auto &list : by_rank) list.clear();
        set_rank(ALL_OWED, 0);
        for (int d = 0; ranks && d < (int)day.depots.size(); d++)
            for (int t = 0; t <= day.horizon; t++) set_rank(node(day.depots[d], t), 1 + (by_depot ? d : t));
    }
    void lay_out(const Live &live) {
        set_ranks();
        net.clear();
        for (size_t l = 0; l < day.lanes.size(); l++) {
            auto [from, to, transit] = day.lanes[l];
            for (int t = 0; t < PERIODS; t++) {
                bool is_live = t + transit <= day.horizon && live.at(from, t) && live.at(to, t + transit);
                if (is_live) add(node(from, t), node(to, t + transit), day.capacities[l][t]);
                else add(SOURCE, SOURCE, 0);
            }
        }
        for (size_t d = 0; d < day.depots.size(); d++) {
            for (int t = 0; t <= day.horizon; t++) add(node(day.depots[d], t), OWED + d, day.owed[d]);
            add(OWED + d, ALL_OWED, day.owed[d]);
        }
        net.finish();
    }

    // --- the search. Where the tree is mended, a level is the number by which a node was reached. ---

    void reach(int node, int level, int via, size_t &to) {
        if (visit[node].level) return;
        visit[node] = {MENDS ? ++reached : (uint16_t)level, (uint16_t)via};
        queue[to++] = node;
    }
    void flood(size_t to) {
        steps = 0;
        for (size_t at = 0; at < to;) {
            int v = queue[at++], level = visit[v].level + 1;
            net.each_way(v, [&](int w, int via) {
                steps++;
                if (net.room(via)) reach(w, level, via, to);
            });
        }
        steps += to;
    }
    void explore() {
        searches++;
        for (auto &v : visit) v.level = 0;
        visit[SOURCE] = {reached = 1, 0};
        queue[0] = SOURCE;
        flood(1);
    }
    uint32_t augment(int node) {
        uint32_t amount = UINT32_MAX;
        for (int at = node; visit[at].level > 1; at = net.from(visit[at].via)) amount = std::min(amount, net.room(visit[at].via));
        for (int at = node; amount && visit[at].level > 1; at = net.from(visit[at].via)) {
            net.push(visit[at].via, amount);
            if (MENDS && !net.room(visit[at].via)) lost.push_back(at);
        }
        return amount;
    }
    void stamp(int mark_now) {
        for (int v = 0; v < NODES; v++) if (visit[v].level) mark[v] = mark_now;
    }

    // --- afresh: rounds of sending more along the tree of the last search, then along other ways on its levels, and a search ---

    bool is_asking(int v, int k) const { return visit[v].level && rank[v] >= 0 && rank[v] < k; }
    uint64_t drain(int k) {
        uint64_t more = 0;
        for (int v = 0; v < NODES; v++) if (is_asking(v, k)) more += augment(v);
        return more;
    }
    bool is_entered(int v) const { return !shut[net.from(visit[v].via)] && net.room(visit[v].via); }
    bool is_reentered(int v) {
        return net.any_into(v, patience, [&](int u, int via) {
            if (!visit[u].level || visit[u].level + 1 != visit[v].level || shut[u]) return false;
            visit[v].via = via;
            return true;
        });
    }
    // The first node on the way back from this one that cannot be entered from a level below, or else the source.
    int go_back(int node) {
        while (visit[node].level > 1 && (is_entered(node) || is_reentered(node))) node = net.from(visit[node].via);
        return node;
    }
    // Opens a way to the node on the levels of the search, shutting nodes that have none, and says whether there is one.
    bool reopen(int node) {
        int64_t length = visit[node].level;
        while (patience >= 3 * length) {
            int at = go_back(node);
            if (at == node) {
                shut[at] = 1;
                return false;
            }
            patience = std::max<int64_t>(0, patience - (at == SOURCE ? 3 : 1) * length);
            if (at == SOURCE) return true;
            shut[at] = 1;
        }
        return false;
    }
    uint64_t drain_again(int k) {
        uint64_t more = 0;
        std::fill(shut.begin(), shut.end(), 0);
        for (int v = 0; v < NODES; v++)
            if (is_asking(v, k))
                while (reopen(v)) more += augment(v);
        return more;
    }
    // One search at the start, and one after each round that sent something: so a rank begins with the last search before it. A
    // round has patience for an eighth of the steps of that search at most, for half as many as the round before if that found no
    // other way, and for up to twice as many if it did.
    void serve_afresh(int last) {
        explore();
        int64_t most = steps / 8;
        for (int k = 0; k <= last; k++) {
            uint64_t total = 0;
            while (uint64_t more = drain(k)) {
                patience = most;
                uint64_t again = most ? drain_again(k) : 0;
                total += more + again;
                explore();
                most = std::min(again ? 2 * most : most / 2, steps / 8);
            }
            stamp(k + 1);
            if (k) figure[k - 1] = total;
        }
    }

    // --- mending: the way to each node has room and comes from a lower level; no way with room leads out of what is reached ---

    bool is_held(int v) const {
        int above = visit[net.from(visit[v].via)].level;
        return above && above < visit[v].level && net.room(visit[v].via);
    }
    bool is_adopted(int v) {
        return net.any_into(v, ever, [&](int u, int via) {
            if (!visit[u].level || visit[u].level >= visit[v].level) return false;
            visit[v].via = via;
            return true;
        });
    }
    void forget(int v) {
        net.each_way(v, [&](int w, int via) { if (visit[w].level > 1 && visit[w].via == via) lost.push_back(w); });
        visit[v].level = 0;
        forgotten.push_back(v);
    }
    void reach_again(size_t first) {
        size_t to = 0;
        for (size_t i = first; i < forgotten.size(); i++) {
            int v = forgotten[i];
            if (!visit[v].level)
                net.any_into(v, ever, [&](int u, int via) {
                    if (visit[u].level) reach(v, 0, via, to);
                    return visit[u].level > 0;
                });
        }
        flood(to);
    }
    void mend() {
        if (reached > UINT16_MAX - NODES) {   // before the levels become too high
            for (int v = 0; v < NODES; v++) if (visit[v].level) forgotten.push_back(v);
            lost.clear();
            return explore();
        }
        size_t first = forgotten.size();
        for (size_t i = 0; i < lost.size(); i++) {
            int v = lost[i];
            if (visit[v].level && !is_held(v) && !is_adopted(v)) forget(v);
        }
        lost.clear();
        reach_again(first);
    }
    // A node of rank k - 1 is served until it is not reached; what is forgotten then is never reached again.
    void serve_mending(int last) {
        explore();
        for (int k = 1; k <= last; k++) {
            uint64_t total = 0;
            forgotten.clear();
            for (int v : by_rank[k - 1]) while (visit[v].level) { total += augment(v); mend(); }
            for (int v : forgotten) if (!visit[v].level) mark[v] = k;
            figure[k - 1] = total;
        }
        stamp(last + 1);
    }
    void serve(int last) {
        searches = 0;
        std::fill(mark.begin(), mark.end(), 0);
        if (MENDS) serve_mending(last); else serve_afresh(last);
    }

    // --- what is asked of a board ---

    void quote(bool depot_order) {
        by_depot = depot_order;
        ranks = by_depot ? day.depots.size() : day.horizon + 1;
        Live live(day);
        lay_out(live);
        serve(ranks + 1);
        size_t place = 0;
        for (int y = 0; y < YARDS; y++)
            for (int t = 0; t <= day.horizon; t++, place++)
                told[place] = !live.at(y, t) ? 0 : y == day.origin ? ranks + 1 : std::max(0, mark[node(y, t)] - 1);
    }
    bool plan() {
        ranks = 0;
        lay_out(Live(day));
        serve(1);
        uint64_t all = 0;
        for (uint32_t owed : day.owed) all += owed;
        return figure[0] == all;
    }
};

template <class AnyBoard> void measure(const char *name, const Day &day, bool depot_order, double seconds) {
    AnyBoard board(day);
    printf("time\t%s\tplan\t%.2f\n", name, micros(seconds, [&] { board.plan(); }));
    printf("count\t%s\tplan searches\t%d\n", name, board.searches);
    printf("time\t%s\tquote\t%.2f\n", name, micros(seconds, [&] { board.quote(depot_order); }));
    printf("count\t%s\tsearches\t%d\n", name, board.searches);
    print_list("figures", std::vector<uint64_t>(board.figure.begin() + 1, board.figure.begin() + 1 + board.ranks));
    print_list("marks", board.told);
}

int main(int argc, char **argv) {
    if (argc != 3) { fprintf(stderr, "plain RANKING SECONDS < FILE.day\n"); return 2; }
    Day day = read_day(stdin);
    bool depot_order = atoi(argv[1]) == 0;
    double seconds = atof(argv[2]);
    measure<Board<Linked, false, true>>("same scheme", day, depot_order, seconds);
    measure<Board<Halves, false, false>>("side by side", day, depot_order, seconds);
    measure<Board<Linked, true, false>>("mending", day, depot_order, seconds);
    measure<Board<Halves, true, false>>("mending, side by side", day, depot_order, seconds);
}
