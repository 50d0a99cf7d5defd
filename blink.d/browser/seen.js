// What the page of an image shows: the image, the page that is chosen, the way of the last search and its key, and the page that breaks a rule.
// Places are counted in leaves: `from` is that of the left rim, and the whole width is `leaves / zoom` of them.
export const seen = { image: null, chosen: 0, way: [], key: null, fault: null, zoom: 1, from: 0 };
