// Functions of tests that run in the page ask its elements for what some kinds of them have; one that has not fails there.

interface Element {
  checked: boolean;
  dataset: DOMStringMap;
  hidden: boolean;
  offsetWidth: number;
  open: boolean;
  options: HTMLOptionsCollection;
  ownerSVGElement: SVGSVGElement | null;
  placeholder: string;
  selectedOptions: HTMLCollectionOf<HTMLOptionElement>;
  tabIndex: number;
  type: string;
  value: string;
  width: { baseVal: { value: number } };
  x: { baseVal: { value: number } };
  checkVisibility(): boolean;
  click(): void;
  focus(): void;
}

interface Node {
  data: string;
}

// digits are numbers
interface Uint8ArrayConstructor {
  from(digits: string): Uint8Array;
}
