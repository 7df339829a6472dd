struct list {
    int value;
    struct list *next;
};

int sum(const struct list *list);
