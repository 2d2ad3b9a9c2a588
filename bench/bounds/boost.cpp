// Boost's maximum_cycle_ratio (Howard) on the graphs of a list, for comparison: microseconds a solve, the graph's building left out.
// Input, one graph a line: N E, then the times, then from to mark of each edge.
#include <boost/graph/adjacency_list.hpp>
#include <boost/graph/howard_cycle_ratio.hpp>
#include <chrono>
#include <cstdio>
#include <iostream>
#include <sstream>
#include <string>
#include <vector>

using Weight = boost::property<boost::edge_weight_t, double, boost::property<boost::edge_weight2_t, double>>;
using Graph = boost::adjacency_list<boost::vecS, boost::vecS, boost::directedS, boost::property<boost::vertex_index_t, int>, Weight>;

int main(int argc, char** argv) {
    int rounds = argc > 1 ? std::atoi(argv[1]) : 200;
    std::string line;
    double total = 0, sum = 0;
    int graphs = 0;
    while (std::getline(std::cin, line)) {
        std::istringstream in(line);
        int n, e;
        in >> n >> e;
        std::vector<long> times(n);
        for (auto& t : times) in >> t;
        Graph g(3 * n + 2);
        auto place = [&](int s, int d, int tokens) {
            double time = s % 3 == 2 ? times[s / 3] : 0;
            boost::add_edge(s, d, Weight(time, boost::property<boost::edge_weight2_t, double>(tokens)), g);
        };
        for (int i = 0; i < n; i++) {
            place(3 * i + 1, 3 * i + 2, 0);
            place(3 * i + 2, 3 * i + 3, 0);
            place(3 * i + 3, 3 * i + 1, 1);
        }
        for (int k = 0; k < e; k++) {
            int a, b, m;
            in >> a >> b >> m;
            int w = 3 * a, r = b == n + 1 ? 3 * n + 1 : 3 * b - 2;
            place(w, r, m);
            place(r, w, 1 - m);
        }
        auto index = boost::get(boost::vertex_index, g);
        auto w1 = boost::get(boost::edge_weight, g);
        auto w2 = boost::get(boost::edge_weight2, g);
        double best = 1e300;
        for (int k = 0; k < rounds; k++) {
            std::vector<boost::graph_traits<Graph>::edge_descriptor> ring;
            auto before = std::chrono::steady_clock::now();
            sum += boost::maximum_cycle_ratio(g, index, w1, w2, &ring);
            auto after = std::chrono::steady_clock::now();
            best = std::min(best, std::chrono::duration<double, std::micro>(after - before).count());
        }
        total += best;
        graphs++;
    }
    std::printf("graphs %d, best of %d: mean %.2f us (check %.3f)\n", graphs, rounds, total / graphs, sum / rounds);
}
