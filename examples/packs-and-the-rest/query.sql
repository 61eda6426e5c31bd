SELECT id, qty / 4 AS packs, qty - qty / 4 * 4 AS rest FROM sales WHERE qty >= 4;
