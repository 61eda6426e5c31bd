SELECT SUM(amt*rate), SUM(amt), AVG(amt), SUM(amt + rate) FROM p
