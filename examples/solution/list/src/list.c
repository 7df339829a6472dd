struct list { int count; };
