export { loadPrint1525, Answer, Answered, Asked, Bytes, Numbers, Print1525, Recording, Script } from './print1525.mjs';
