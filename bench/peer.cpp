// A solver of a package, to compare with: a maximum flow by LEMON's Preflow or, with -DBOOST, by Boost's
// push_relabel_max_flow. It prints its value.
// Usage: peer NET A B
#include "network.h"

#ifdef BOOST
#include <boost/graph/adjacency_list.hpp>
#include <boost/graph/push_relabel_max_flow.hpp>

using Traits = boost::adjacency_list_traits<boost::vecS, boost::vecS, boost::directedS>;
using Reverse = boost::property<boost::edge_reverse_t, Traits::edge_descriptor>;
using Residual = boost::property<boost::edge_residual_capacity_t, int64_t, Reverse>;
using Graph = boost::adjacency_list<boost::vecS, boost::vecS, boost::directedS, boost::no_property,
                                    boost::property<boost::edge_capacity_t, int64_t, Residual>>;

static uint64_t max_flow(const Network &net, int source, int sink) {
    Graph graph(net.names.size());
    auto capacity = get(boost::edge_capacity, graph);
    auto reverse = get(boost::edge_reverse, graph);
    for (auto &i : net.imports) {
        auto there = add_edge(i.from, i.to, graph).first, back = add_edge(i.to, i.from, graph).first;
        capacity[there] = i.weight, capacity[back] = 0;
        reverse[there] = back, reverse[back] = there;
    }
    return push_relabel_max_flow(graph, source, sink);
}
#else
#define LEMON_ONLY_TEMPLATES
#include <lemon/preflow.h>
#include <lemon/static_graph.h>
#include <algorithm>

using Graph = lemon::StaticDigraph;

static uint64_t max_flow(const Network &net, int source, int sink) {
    std::vector<Import> imports = net.imports;
    std::sort(imports.begin(), imports.end(), [](const Import &i, const Import &j) { return i.from < j.from; });
    std::vector<std::pair<int, int>> arcs;
    for (auto &i : imports) arcs.push_back({i.from, i.to});
    Graph graph;
    graph.build(net.names.size(), arcs.begin(), arcs.end());
    Graph::ArcMap<int64_t> capacity(graph);
    for (size_t k = 0; k < imports.size(); k++) capacity[graph.arc(k)] = imports[k].weight;
    lemon::Preflow<Graph, Graph::ArcMap<int64_t>> flow(graph, capacity, graph.node(source), graph.node(sink));
    flow.run();
    return flow.flowValue();
}
#endif

int main(int count, char **words) {
    if (count != 4) return 2;
    Network net;
    net.read(words[1]);
    if (!net.numbers.count(words[2]) || !net.numbers.count(words[3])) return 1;
    printf("weight %llu\n", (unsigned long long)max_flow(net, net.numbers[words[2]], net.numbers[words[3]]));
    return 0;
}
