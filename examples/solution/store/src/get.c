int get(int key) { return key; }
