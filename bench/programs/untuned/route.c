/* Shortest ways in a net of 128 nodes with 6 links each, by a heap with places, and the way's nodes read back. Input: questions. */
int link_to[768];
int link_cost[768];
int distance[128];
int before[128];
int heap[128];
int heap_place[128];
int heap_size;
unsigned seed = 1;

int next(int limit)
{
    seed = seed * 1664525 + 1013904223;
    return (int) ((seed >> 8) % (unsigned) limit);
}

void make_net(void)
{
    int node;
    int k;
    for (node = 0; node < 128; node++) {
        for (k = 0; k < 6; k++) {
            link_to[node * 6 + k] = k == 0 ? (node + 1) % 128 : next(128);
            link_cost[node * 6 + k] = 1 + next(100);
        }
    }
}

void swap(int a, int b)
{
    int x = heap[a];
    int y = heap[b];
    heap[a] = y;
    heap[b] = x;
    heap_place[y] = a;
    heap_place[x] = b;
}

void rise(int at)
{
    while (at > 0) {
        int parent = (at - 1) / 2;
        if (distance[heap[parent]] <= distance[heap[at]])
            return;
        swap(parent, at);
        at = parent;
    }
}

void sink(int at)
{
    for (;;) {
        int least = at;
        int child = 2 * at + 1;
        if (child < heap_size && distance[heap[child]] < distance[heap[least]])
            least = child;
        child++;
        if (child < heap_size && distance[heap[child]] < distance[heap[least]])
            least = child;
        if (least == at)
            return;
        swap(least, at);
        at = least;
    }
}

int take_least(void)
{
    int node = heap[0];
    heap_size--;
    swap(0, heap_size);
    heap_place[node] = -1;
    sink(0);
    return node;
}

void improve(int node, int cost, int from)
{
    if (distance[node] >= 0 && distance[node] <= cost)
        return;
    if (distance[node] < 0) {
        heap[heap_size] = node;
        heap_place[node] = heap_size;
        heap_size++;
    }
    distance[node] = cost;
    before[node] = from;
    rise(heap_place[node]);
}

void search(int from)
{
    int i;
    for (i = 0; i < 128; i++) {
        distance[i] = -1;
        heap_place[i] = -1;
    }
    heap_size = 0;
    improve(from, 0, -1);
    while (heap_size > 0) {
        int node = take_least();
        int k;
        for (k = 0; k < 6; k++) {
            int other = link_to[node * 6 + k];
            if (distance[other] < 0 || heap_place[other] >= 0)
                improve(other, distance[node] + link_cost[node * 6 + k], node);
        }
    }
}

int main(void)
{
    int questions = read_word();
    unsigned seen = 0;
    int q;
    make_net();
    for (q = 0; q < questions; q++) {
        int from = next(128);
        int to = next(128);
        int steps = 0;
        search(from);
        seen = seen * 131 + (unsigned) distance[to];
        while (to != from) {
            to = before[to];
            steps++;
        }
        seen = seen * 7 + (unsigned) steps;
    }
    write_word(seen);
    return 0;
}
