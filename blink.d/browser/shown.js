// What the page of a replay shows: the moment, the tree and who runs then, and what its reader has chosen and points at.
export const shown = { replay: null, moment: 0, tree: null, running: [], chosen: null, pointed: null, timer: null };

export const eventAt = moment => (moment ? shown.replay.events[moment - 1] : null);
export const processOf = number => shown.replay.processes[number];
