import java.lang.reflect.InvocationHandler;
import java.lang.reflect.Method;
import java.lang.reflect.Proxy;
import java.util.Map;
import java.util.function.Function;

/**
 * An object of the framework that answers only what the region hooks ask it. Each answer is a value, or a function of the first
 * argument. Any other question is an error, so that nothing is answered by accident.
 */
final class Fake implements InvocationHandler {
    private final Map<String, Object> answers;

    private Fake(Map<String, Object> answers) {
        this.answers = answers;
    }

    static <T> T of(Class<T> type, Map<String, Object> answers) {
        return type.cast(Proxy.newProxyInstance(type.getClassLoader(), new Class<?>[] {type}, new Fake(answers)));
    }

    @Override
    @SuppressWarnings("unchecked")
    public Object invoke(Object self, Method method, Object[] arguments) {
        Object answer = answers.get(method.getName());
        if (answer instanceof Function) {
            return ((Function<Object, Object>) answer).apply(arguments[0]);
        }
        if (answer != null) {
            return answer;
        }
        switch (method.getName()) {
            case "hashCode":
                return System.identityHashCode(self);
            case "equals":
                return self == arguments[0];
            default:
                throw new UnsupportedOperationException(method.toString());
        }
    }
}
