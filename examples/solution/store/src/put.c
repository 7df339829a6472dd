int put(int key, int value) { return key + value; }
