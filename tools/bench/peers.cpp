// Times greatest flows of LEMON, Boost Graph and igraph on the day network of a day file.
//     g++ -std=c++17 -O3 -march=native -o peers tools/bench/peers.cpp -ligraph; ./peers RANKING SECONDS < FILE.day
// (Without igraph's headers it is left out, and needs no -ligraph.) RANKING is 0 (depot order) or 1 (period order).
// It prints the figures and the marks, and the processor time of each peer for: the greatest flow to all owed (`owed`), that to
// all owed and all ranks (`all`), and the nested flows, one for each k from 0 to K, without and with the smallest cut of each.
// Each flow starts from nothing, but for the peers that say that they go on. It fails where two peers do not agree.
#include "day_file.h"
#include <boost/graph/boykov_kolmogorov_max_flow.hpp>
#include <boost/graph/compressed_sparse_row_graph.hpp>
#include <boost/graph/push_relabel_max_flow.hpp>
#include <lemon/static_graph.h>
// (edmonds_karp.h lacks what preflow.h includes.)
#include <lemon/preflow.h>
#include <lemon/edmonds_karp.h>
#include <memory>
#include <numeric>
#if __has_include(<igraph/igraph.h>)
#include <igraph/igraph.h>
#define HAS_IGRAPH
#endif

// --- the network: live places, a source for all origin places, what is owed at each depot, and a sink ---

constexpr int ALWAYS = -1, LIMITLESS = 100000000;

struct Arc { int tail, head, capacity, rank; };   // an arc of a rank is open for each k above it

struct Net {
    int nodes = 2, source = 0, sink = 1, ranks = 0;
    std::vector<Arc> arcs;
    std::vector<std::array<int, PERIODS>> node;   // of each yard, -1 where a place is not live

    Net(const Day &day, bool by_depot) : ranks(by_depot ? day.depots.size() : day.horizon + 1), node(YARDS) {
        Live live(day);
        for (int y = 0; y < YARDS; y++)
            for (int t = 0; t < PERIODS; t++)
                node[y][t] = t > day.horizon || !live.at(y, t) ? -1 : y == day.origin ? source : nodes++;
        for (size_t l = 0; l < day.lanes.size(); l++) {
            auto [from, to, transit] = day.lanes[l];
            for (int t = 0; t + transit <= day.horizon; t++)
                if (node[from][t] >= 0 && node[to][t + transit] >= 0)
                    arcs.push_back({node[from][t], node[to][t + transit], day.capacities[l][t], ALWAYS});
        }
        for (size_t d = 0; d < day.depots.size(); d++) add_depot(day, d, by_depot);
    }
    void add_depot(const Day &day, int d, bool by_depot) {
        int owed = nodes++, pallets = day.owed[d];
        for (int t = 0; t <= day.horizon; t++) {
            int place = node[day.depots[d]][t];
            if (place < 0) continue;
            arcs.push_back({place, owed, pallets, ALWAYS});
            arcs.push_back({place, sink, LIMITLESS, by_depot ? d : t});
        }
        arcs.push_back({owed, sink, pallets, ALWAYS});
    }
    int capacity(int e, int k) const { return arcs[e].rank < k ? arcs[e].capacity : 0; }
    int size() const { return arcs.size(); }
};

using Inside = std::vector<char>;   // for each node whether it is in a cut

// A peer: the value of the greatest flow for k, and with it the smallest cut.
struct Peer {
    const Net &net;
    std::string name;
    Peer(const Net &net, std::string name) : net(net), name(std::move(name)) {}
    virtual ~Peer() = default;
    virtual long value(int k) = 0;
    virtual long value_and_cut(int k, Inside &inside) = 0;
};

// What can be reached from the source over residual arcs; `each_out(v, go)` calls go for each node that v leads to.
template <class EachOut> void reach(const Net &net, Inside &inside, EachOut each_out) {
    static std::vector<int> queue;
    queue.assign(1, net.source);
    std::fill(inside.begin(), inside.end(), 0);
    inside[net.source] = 1;
    for (size_t at = 0; at < queue.size(); at++)
        each_out(queue[at], [&](int w) { if (!inside[w]) { inside[w] = 1; queue.push_back(w); } });
}

// The numbers 0 to count - 1, ordered by a key.
template <class Key> std::vector<int> sorted_by(int count, Key key) {
    std::vector<int> order(count);
    std::iota(order.begin(), order.end(), 0);
    std::stable_sort(order.begin(), order.end(), [&](int a, int b) { return key(a) < key(b); });
    return order;
}

// --- LEMON ---

using Graph = lemon::StaticDigraph;
using Capacities = Graph::ArcMap<int>;

struct LemonPeer : Peer {
    Graph graph;
    std::unique_ptr<Capacities> capacities;
    std::vector<int> number;   // the arc of the network that each arc of the graph is

    bool reversed;

    LemonPeer(const Net &net, std::string name, bool reversed) : Peer(net, std::move(name)), reversed(reversed) {
        auto from = [&](int e) { return reversed ? net.arcs[e].head : net.arcs[e].tail; };
        number = sorted_by(net.size(), from);
        std::vector<std::pair<int, int>> ends;
        for (int e : number) ends.emplace_back(from(e), net.arcs[e].tail + net.arcs[e].head - from(e));
        graph.build(net.nodes, ends.begin(), ends.end());
        capacities = std::make_unique<Capacities>(graph);
    }
    void open(int k) {
        for (int i = 0; i < net.size(); i++) (*capacities)[graph.arc(i)] = net.capacity(number[i], k);
    }
    template <class Flow> void reach_by(const Flow &flow, Inside &inside) {
        auto has_room = [&](Graph::Arc a) { return flow.flow(a) < (*capacities)[a]; };
        auto has_load = [&](Graph::Arc a) { return flow.flow(a) > 0; };
        reach(net, inside, [&](int v, auto go) {
            for (Graph::OutArcIt a(graph, graph.node(v)); a != lemon::INVALID; ++a)
                if (reversed ? has_load(a) : has_room(a)) go(graph.id(graph.target(a)));
            for (Graph::InArcIt a(graph, graph.node(v)); a != lemon::INVALID; ++a)
                if (reversed ? has_room(a) : has_load(a)) go(graph.id(graph.source(a)));
        });
    }
};

struct LemonPreflow : LemonPeer {
    lemon::Preflow<Graph, Capacities> flow;
    explicit LemonPreflow(const Net &net)
        : LemonPeer(net, "LEMON Preflow", false), flow(graph, *capacities, graph.node(net.source), graph.node(net.sink)) {}
    long value(int k) override {
        open(k);
        flow.init();
        flow.startFirstPhase();
        return flow.flowValue();
    }
    long value_and_cut(int k, Inside &inside) override {
        long found = value(k);
        flow.startSecondPhase();
        reach_by(flow, inside);
        return found;
    }
};

// On the network with every arc turned round, what can still reach the target after the first phase is the smallest cut here.
struct LemonReversed : LemonPeer {
    bool goes_on;
    lemon::Preflow<Graph, Capacities> flow;
    explicit LemonReversed(const Net &net, bool goes_on)
        : LemonPeer(net, goes_on ? "LEMON Preflow, turned round, going on" : "LEMON Preflow, turned round", true),
          goes_on(goes_on), flow(graph, *capacities, graph.node(net.sink), graph.node(net.source)) {}
    long value(int k) override {
        open(k);
        if (goes_on && k > 0) flow.init(flow.flowMap()); else flow.init();
        flow.startFirstPhase();
        return flow.flowValue();
    }
    long value_and_cut(int k, Inside &inside) override {
        long found = value(k);
        reach_by(flow, inside);
        return found;
    }
};

struct LemonEdmondsKarp : LemonPeer {
    lemon::EdmondsKarp<Graph, Capacities> flow;
    explicit LemonEdmondsKarp(const Net &net)
        : LemonPeer(net, "LEMON EdmondsKarp", false), flow(graph, *capacities, graph.node(net.source), graph.node(net.sink)) {}
    long value(int k) override {
        open(k);
        flow.run();
        return flow.flowValue();
    }
    long value_and_cut(int k, Inside &inside) override {
        long found = value(k);
        for (int v = 0; v < net.nodes; v++) inside[v] = flow.minCut(graph.node(v));
        return found;
    }
};

// --- Boost Graph ---

using BoostGraph = boost::compressed_sparse_row_graph<boost::directedS, boost::no_property, boost::no_property,
                                                      boost::no_property, int, int>;
using BoostArc = boost::graph_traits<BoostGraph>::edge_descriptor;
enum class By { PUSH_RELABEL, BOYKOV_KOLMOGOROV };

// Arc e of the network is twice in the graph: as it is, and turned round with the capacity 0.
struct BoostPeer : Peer {
    By by;
    BoostGraph graph;
    std::vector<int> at;   // where arc e is among the arcs of the graph
    std::vector<int> capacity, residual, distance;
    std::vector<BoostArc> reverse, before;
    std::vector<boost::default_color_type> colour;

    BoostPeer(const Net &net, std::string name, By by) : Peer(net, std::move(name)), by(by) {
        int twice = 2 * net.size();
        auto tail = [&](int a) { return a % 2 ? net.arcs[a / 2].head : net.arcs[a / 2].tail; };
        std::vector<int> order = sorted_by(twice, tail), place(twice);
        std::vector<std::pair<int, int>> ends;
        for (int i = 0; i < twice; i++) {
            place[order[i]] = i;
            ends.emplace_back(tail(order[i]), tail(order[i] ^ 1));
        }
        graph = BoostGraph(boost::edges_are_sorted, ends.begin(), ends.end(), net.nodes);
        std::vector<BoostArc> arcs(boost::edges(graph).first, boost::edges(graph).second);
        for (int i = 0; i < twice; i++) reverse.push_back(arcs[place[order[i] ^ 1]]);
        for (int e = 0; e < net.size(); e++) at.push_back(place[2 * e]);
        capacity.assign(twice, 0);
        residual.assign(twice, 0);
        distance.assign(net.nodes, 0);
        before.resize(net.nodes);
        colour.resize(net.nodes);
    }
    template <class List> auto by_arc(List &list) {
        return boost::make_iterator_property_map(list.begin(), boost::get(boost::edge_index, graph));
    }
    template <class List> auto by_node(List &list) {
        return boost::make_iterator_property_map(list.begin(), boost::get(boost::vertex_index, graph));
    }
    long value(int k) override {
        for (int e = 0; e < net.size(); e++) capacity[at[e]] = net.capacity(e, k);
        auto cap = by_arc(capacity), res = by_arc(residual);
        auto rev = by_arc(reverse);
        auto index = boost::get(boost::vertex_index, graph);
        if (by == By::PUSH_RELABEL) return boost::push_relabel_max_flow(graph, net.source, net.sink, cap, res, rev, index);
        return boost::boykov_kolmogorov_max_flow(graph, cap, res, rev, by_node(before), by_node(colour), by_node(distance), index,
                                                 net.source, net.sink);
    }
    long value_and_cut(int k, Inside &inside) override {
        long found = value(k);
        reach(net, inside, [&](int v, auto go) {
            for (auto [a, last] = boost::out_edges(v, graph); a != last; ++a)
                if (residual[boost::get(boost::edge_index, graph, *a)] > 0) go(boost::target(*a, graph));
        });
        return found;
    }
};

// --- igraph ---

#ifdef HAS_IGRAPH
struct IgraphPeer : Peer {
    igraph_t graph;
    igraph_vector_t capacity, flow;
    std::vector<std::vector<std::pair<int, bool>>> at;   // the arcs at each node, and whether they enter it

    explicit IgraphPeer(const Net &net) : Peer(net, "igraph"), at(net.nodes) {
        igraph_vector_int_t ends;
        igraph_vector_int_init(&ends, 0);
        for (int e = 0; e < net.size(); e++) {
            igraph_vector_int_push_back(&ends, net.arcs[e].tail);
            igraph_vector_int_push_back(&ends, net.arcs[e].head);
            at[net.arcs[e].tail].emplace_back(e, false);
            at[net.arcs[e].head].emplace_back(e, true);
        }
        igraph_create(&graph, &ends, net.nodes, IGRAPH_DIRECTED);
        igraph_vector_int_destroy(&ends);
        igraph_vector_init(&capacity, net.size());
        igraph_vector_init(&flow, net.size());
    }
    ~IgraphPeer() override {
        igraph_destroy(&graph);
        igraph_vector_destroy(&capacity);
        igraph_vector_destroy(&flow);
    }
    void open(int k) {
        for (int e = 0; e < net.size(); e++) VECTOR(capacity)[e] = net.capacity(e, k);
    }
    long value(int k) override {
        igraph_real_t found;
        open(k);
        igraph_maxflow_value(&graph, &found, net.source, net.sink, &capacity, nullptr);
        return found;
    }
    long value_and_cut(int k, Inside &inside) override {
        igraph_real_t found;
        open(k);
        igraph_maxflow(&graph, &found, &flow, nullptr, nullptr, nullptr, net.source, net.sink, &capacity, nullptr);
        reach(net, inside, [&](int v, auto go) {
            for (auto [e, enters] : at[v])
                if (enters ? VECTOR(flow)[e] > 0 : VECTOR(flow)[e] < VECTOR(capacity)[e])
                    go(enters ? net.arcs[e].tail : net.arcs[e].head);
        });
        return found;
    }
};
#endif

// --- figures, marks, times ---

struct Quote {
    std::vector<long> figures;
    std::vector<int> marks;   // by yard and period, as a board tells them
    bool operator==(const Quote &other) const { return figures == other.figures && marks == other.marks; }
};

Quote quote_of(Peer &peer, const Net &net, const Day &day) {
    Quote quote{{}, std::vector<int>(YARDS * (day.horizon + 1))};
    Inside inside(net.nodes);
    long before = 0;
    for (int k = 0; k <= net.ranks; k++) {
        long value = peer.value_and_cut(k, inside);
        if (k) quote.figures.push_back(value - before);
        before = value;
        for (int y = 0; y < YARDS; y++)
            for (int t = 0; t <= day.horizon; t++)
                if (net.node[y][t] >= 0) quote.marks[y * (day.horizon + 1) + t] += inside[net.node[y][t]];
    }
    return quote;
}

void measure(Peer &peer, double seconds) {
    const Net &net = peer.net;
    Inside inside(net.nodes);
    auto tell = [&](const char *what, auto call) {
        printf("time\t%s\t%s\t%.2f\n", peer.name.c_str(), what, micros(seconds, call));
    };
    tell("owed", [&] { peer.value(0); });
    if (peer.name.find("going on") == std::string::npos) tell("all", [&] { peer.value(net.ranks); });
    tell("nested", [&] { for (int k = 0; k <= net.ranks; k++) peer.value(k); });
    tell("nested with cuts", [&] { for (int k = 0; k <= net.ranks; k++) peer.value_and_cut(k, inside); });
}

int main(int argc, char **argv) {
    if (argc != 3) { fprintf(stderr, "peers RANKING SECONDS < FILE.day\n"); return 2; }
    Day day = read_day(stdin);
    Net net(day, atoi(argv[1]) == 0);
    std::vector<std::unique_ptr<Peer>> peers;
    peers.push_back(std::make_unique<LemonPreflow>(net));
    peers.push_back(std::make_unique<LemonReversed>(net, false));
    peers.push_back(std::make_unique<LemonReversed>(net, true));
    peers.push_back(std::make_unique<LemonEdmondsKarp>(net));
    peers.push_back(std::make_unique<BoostPeer>(net, "Boost push_relabel", By::PUSH_RELABEL));
    peers.push_back(std::make_unique<BoostPeer>(net, "Boost boykov_kolmogorov", By::BOYKOV_KOLMOGOROV));
#ifdef HAS_IGRAPH
    peers.push_back(std::make_unique<IgraphPeer>(net));
#endif
    Quote first = quote_of(*peers[0], net, day);
    print_list("figures", first.figures);
    print_list("marks", first.marks);
    printf("size\t%d\t%d\n", net.nodes, net.size());
    for (auto &peer : peers) {
        if (!(quote_of(*peer, net, day) == first)) { fprintf(stderr, "%s does not agree\n", peer->name.c_str()); return 1; }
        measure(*peer, atof(argv[2]));
    }
}
