// A queue whose first element is removed at a cost that doesn't depend on its length.

const MOST_EMPTY = 1024; // places at the front before they are freed

export class Queue {
  constructor() {
    this._items = [];
    this._head = 0;
  }

  get length() {
    return this._items.length - this._head;
  }

  get first() {
    return this._items[this._head];
  }

  push(item) {
    this._items.push(item);
  }

  shift() {
    const item = this._items[this._head];
    if (this._head === this._items.length) return undefined;
    this._items[this._head] = undefined;
    this._head += 1;
    if (this._head === this._items.length || this._head === MOST_EMPTY) {
      this._items.splice(0, this._head);
      this._head = 0;
    }
    return item;
  }

  /** Removes all, and gives them. */
  clear() {
    const items = this._items.slice(this._head);
    this._items = [];
    this._head = 0;
    return items;
  }
}
