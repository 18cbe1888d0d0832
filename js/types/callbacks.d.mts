/**
 * The event that a name was meant for, if it looks like one: but for case and separators, by `on` in front, by the name of a hook,
 * or by a slip.
 * @param {string} name
 */
export function eventLike(name: string): string | undefined;
/**
 * Refuses what can't be meant: names that look like events, and callbacks for events that the output does not tell.
 * @param {any} callbacks
 * @param {string[]} groups the groups of the output
 * @param {"refuse" | "ignore"} unselected what is done about a callback whose group is not among them
 */
export function checkCallbacks(callbacks: any, groups: string[], unselected: "refuse" | "ignore"): void;
