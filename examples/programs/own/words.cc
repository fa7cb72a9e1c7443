// C++ without its library: constructors, destructors, templates, virtual functions, and memory by new.
#include <stdio.h>
#include <stdlib.h>
#include <string.h>

void *operator new(size_t size)
{
    void *memory = malloc(size);
    if (memory == nullptr)
        abort();
    return memory;
}

void operator delete(void *memory) noexcept
{
    free(memory);
}

void operator delete(void *memory, size_t) noexcept
{
    free(memory);
}

namespace {

struct Noted {
    const char *name;
    explicit Noted(const char *name) : name(name) { printf("begin %s\n", name); }
    ~Noted() { printf("end %s\n", name); }
};

Noted first("first"), second("second");

struct Shape {
    virtual double area() const = 0;
    virtual ~Shape() = default;
};

struct Circle : Shape {
    double radius;
    explicit Circle(double radius) : radius(radius) {}
    double area() const override { return 3.141592653589793 * radius * radius; }
};

struct Square : Shape {
    double side;
    explicit Square(double side) : side(side) {}
    double area() const override { return side * side; }
};

template <typename Key, typename Value> struct Table {
    struct Entry {
        Key key;
        Value value;
        Entry *next;
    };
    Entry *head = nullptr;
    Value &operator[](Key key)
    {
        for (Entry *entry = head; entry != nullptr; entry = entry->next)
            if (strcmp(entry->key, key) == 0)
                return entry->value;
        head = new Entry{key, Value(), head};
        return head->value;
    }
    ~Table()
    {
        while (head != nullptr) {
            Entry *entry = head;
            head = entry->next;
            delete entry;
        }
    }
};

} // namespace

extern "C" void __cxa_pure_virtual()
{
    abort();
}

int main()
{
    static char text[] = "the quick brown fox jumps over the lazy dog and the end";
    Table<const char *, int> counts;
    for (char *word = strtok(text, " "); word != nullptr; word = strtok(nullptr, " "))
        counts[word]++;
    for (auto *entry = counts.head; entry != nullptr; entry = entry->next)
        printf("%s %d\n", entry->key, entry->value);
    Shape *shapes[] = {new Circle(1.5), new Square(2.25)};
    for (Shape *shape : shapes) {
        printf("%.12f\n", shape->area());
        delete shape;
    }
    return 0;
}
