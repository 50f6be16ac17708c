// Why something can't be done, in words for who asked for it.

export class Fault extends Error {}

// It was left, as was asked for.
export class Left extends Error {}
