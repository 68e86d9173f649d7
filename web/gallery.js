// The gallery's designs, by machine, and its riddles.

export class Gallery {
  constructor({ machines, files, riddles }) {
    this.machines = machines;
    this.files = files;
    this.riddles = riddles;
  }

  /** The name of the design that comes first. */
  get first() { return this.machines[0].designs[0].name; }

  /** Lists the designs. */
  list(select) {
    for (const { title, designs } of this.machines) {
      const group = document.createElement("optgroup");
      group.label = title;
      group.append(...designs.map(({ name, label }) => new Option(label, name)));
      select.append(group);
    }
  }

  /** The texts of a design, or nothing. */
  design(name) {
    const found = this.machines.flatMap(({ designs }) => designs).find((one) => one.name === name);
    if (!found) return null;
    const riddle = this.riddles[name];
    return {
      pipe: this.files[found.pipe],
      spec: this.files[found.spec],
      inv: found.inv ? this.files[found.inv] : "",
      start: riddle ? riddle.start : "",
    };
  }

  /** A riddle's answer, or nothing where the design is none. */
  riddle(name) {
    const riddle = this.riddles[name];
    return riddle ? { ...riddle, text: this.design(name).pipe } : null;
  }
}
