// The least time that one drawing takes of 10, at some scales, in milliseconds.
[0, 0.1, 0.5, 2.9, 3, 30, 120].map((wanted) => {
  const times = [];
  for (let turn = 0; turn < 10; turn++) {
    const begin = performance.now();
    (scale = wanted), (from = most / 2 - ((width - GUTTER) / 2) / wanted), draw();
    times.push(performance.now() - begin);
  }
  return Math.min(...times);
});
