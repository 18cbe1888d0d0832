export type Information = import("./information.mjs").Information;
export type Found = import("./patch.mjs").Found;
