SELECT COUNT(*) AS n FROM sales a JOIN sales b ON a.id = b.id;
