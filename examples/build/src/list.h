struct list { int count; };
int length(struct list l);
struct list empty(void);
