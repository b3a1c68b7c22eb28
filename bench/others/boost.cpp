// Boost's planar straight-line drawing, in whole numbers (Chrobak and Payne).
//
// The embedding is the mesh's own: the sides round each vertex in the order of its triangles. With the word 'test' Boost
// finds the embedding itself, by its planarity test.
#include "mesh.hpp"
#include <boost/graph/adjacency_list.hpp>
#include <boost/graph/boyer_myrvold_planar_test.hpp>
#include <boost/graph/chrobak_payne_drawing.hpp>
#include <boost/graph/planar_canonical_ordering.hpp>
#include <string>

using Graph = boost::adjacency_list<boost::vecS, boost::vecS, boost::undirectedS,
                                    boost::property<boost::vertex_index_t, int>, boost::property<boost::edge_index_t, int>>;
using Edge = boost::graph_traits<Graph>::edge_descriptor;
using Vertex = boost::graph_traits<Graph>::vertex_descriptor;
using Embedding = std::vector<std::vector<Edge>>;
struct Point {
    size_t x, y;
};

// The darts leaving each vertex: to which vertex, and the third one of the triangle, which comes next.
struct Dart {
    int head, back;
};

int main(int count, char **words) {
    bool test = count > 1 && std::string(words[1]) == "test";
    Mesh mesh = read_mesh();
    std::vector<Point> drawing(mesh.n);
    double time = least([&] {
        Graph graph(mesh.n);
        int edges = 0;
        for (auto &t : mesh.triangles)
            for (int k = 0; k < 3; k++)
                if (t[k] < t[(k + 1) % 3]) boost::add_edge(t[k], t[(k + 1) % 3], edges++, graph);
        Embedding rounds(mesh.n);
        auto index = get(boost::vertex_index, graph);
        auto embedding = boost::make_iterator_property_map(rounds.begin(), index);
        if (test) {
            namespace planar = boost::boyer_myrvold_params;
            boost::boyer_myrvold_planarity_test(planar::graph = graph, planar::embedding = embedding);
        } else {
            std::vector<std::vector<Dart>> leaving(mesh.n);
            for (auto &t : mesh.triangles)
                for (int k = 0; k < 3; k++) leaving[t[k]].push_back({t[(k + 1) % 3], t[(k + 2) % 3]});
            std::vector<int> back(mesh.n);
            std::vector<Edge> to(mesh.n);
            for (int v = 0; v < mesh.n; v++) {
                for (auto &dart : leaving[v]) back[dart.head] = dart.back;
                for (auto [e, end] = boost::out_edges(v, graph); e != end; ++e) to[boost::target(*e, graph)] = *e;
                int u = leaving[v][0].head;
                for (size_t k = 0; k < leaving[v].size(); k++, u = back[u]) rounds[v].push_back(to[u]);
            }
        }
        std::vector<Vertex> order;
        boost::planar_canonical_ordering(graph, embedding, std::back_inserter(order));
        auto places = boost::make_iterator_property_map(drawing.begin(), index);
        boost::chrobak_payne_straight_line_drawing(graph, embedding, order.begin(), order.end(), places);
    });
    std::printf("%.3f\n", time);
    for (auto &p : drawing) std::printf("%zu %zu\n", p.x, p.y);
}
