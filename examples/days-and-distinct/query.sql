-- Who came on which of three days around a leap day, each once, the latest day first. Where the day is not known, the condition is not true.
SELECT DISTINCT seen, visitor
FROM visits
WHERE seen BETWEEN DATE '2024-02-28' AND DATE '2024-02-28' + INTERVAL '2' DAY
ORDER BY seen DESC, visitor;
