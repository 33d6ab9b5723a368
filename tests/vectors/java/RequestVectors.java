import java.math.BigInteger;
import java.util.HexFormat;
import org.bouncycastle.asn1.ASN1Encodable;
import org.bouncycastle.asn1.ASN1ObjectIdentifier;
import org.bouncycastle.asn1.DERBitString;
import org.bouncycastle.asn1.DERSet;
import org.bouncycastle.asn1.crmf.AttributeTypeAndValue;
import org.bouncycastle.asn1.crmf.CertId;
import org.bouncycastle.asn1.crmf.CertReqMessages;
import org.bouncycastle.asn1.crmf.CertReqMsg;
import org.bouncycastle.asn1.crmf.CertRequest;
import org.bouncycastle.asn1.crmf.CertTemplate;
import org.bouncycastle.asn1.crmf.CertTemplateBuilder;
import org.bouncycastle.asn1.crmf.Controls;
import org.bouncycastle.asn1.crmf.POPOSigningKey;
import org.bouncycastle.asn1.crmf.ProofOfPossession;
import org.bouncycastle.asn1.pkcs.Attribute;
import org.bouncycastle.asn1.pkcs.CertificationRequest;
import org.bouncycastle.asn1.pkcs.CertificationRequestInfo;
import org.bouncycastle.asn1.pkcs.PKCSObjectIdentifiers;
import org.bouncycastle.asn1.x500.X500Name;
import org.bouncycastle.asn1.x500.X500NameBuilder;
import org.bouncycastle.asn1.x500.style.BCStyle;
import org.bouncycastle.asn1.x509.AlgorithmIdentifier;
import org.bouncycastle.asn1.x509.ExtendedKeyUsage;
import org.bouncycastle.asn1.x509.Extension;
import org.bouncycastle.asn1.x509.Extensions;
import org.bouncycastle.asn1.x509.ExtensionsGenerator;
import org.bouncycastle.asn1.x509.GeneralName;
import org.bouncycastle.asn1.x509.GeneralNames;
import org.bouncycastle.asn1.x509.KeyPurposeId;
import org.bouncycastle.asn1.x509.KeyUsage;
import org.bouncycastle.asn1.x509.SubjectPublicKeyInfo;

/**
 * Prints the requests that a device makes, as Bouncy Castle writes them: a message for an update of a certificate, and a PKCS #10
 * request, both signed by HSS/LMS and with extensions. The key is octets that count up; no signature holds.
 */
public final class RequestVectors {
    private static final AlgorithmIdentifier HSS_LMS =
            new AlgorithmIdentifier(new ASN1ObjectIdentifier("1.2.840.113549.1.9.16.3.17"));
    private static final ASN1ObjectIdentifier OLD_CERT_ID = new ASN1ObjectIdentifier("1.3.6.1.5.5.7.5.1.5");
    private static final DERBitString SIGNATURE = new DERBitString(new byte[] {1, 2});

    public static void main(String[] words) throws Exception {
        System.out.println("# Bouncy Castle " + CertRequest.class.getPackage().getImplementationVersion());
        X500Name subject = new X500NameBuilder().addRDN(BCStyle.C, "DE").addRDN(BCStyle.O, "Fleet").addRDN(BCStyle.CN, "device-1").build();
        SubjectPublicKeyInfo key = new SubjectPublicKeyInfo(HSS_LMS, run(0x40, 60));
        show("update", update(subject, key));
        show("request", request(subject, key));
    }

    private static CertReqMessages update(X500Name subject, SubjectPublicKeyInfo key) throws Exception {
        CertTemplate template = new CertTemplateBuilder().setSubject(subject).setPublicKey(key).setExtensions(extensions()).build();
        X500Name issuer = new X500NameBuilder().addRDN(BCStyle.CN, "Fleet CA").build();
        CertId old = new CertId(new GeneralName(issuer), BigInteger.valueOf(3));
        CertRequest request = new CertRequest(0, template, new Controls(new AttributeTypeAndValue(OLD_CERT_ID, old)));
        return new CertReqMessages(new CertReqMsg(request, new ProofOfPossession(new POPOSigningKey(null, HSS_LMS, SIGNATURE)), null));
    }

    private static CertificationRequest request(X500Name subject, SubjectPublicKeyInfo key) throws Exception {
        Attribute asked = new Attribute(PKCSObjectIdentifiers.pkcs_9_at_extensionRequest, new DERSet(extensions()));
        return new CertificationRequest(new CertificationRequestInfo(subject, key, new DERSet(asked)), HSS_LMS, SIGNATURE);
    }

    private static Extensions extensions() throws Exception {
        ExtensionsGenerator extensions = new ExtensionsGenerator();
        extensions.addExtension(Extension.keyUsage, true, new KeyUsage(KeyUsage.digitalSignature | KeyUsage.nonRepudiation));
        extensions.addExtension(Extension.subjectAlternativeName, false, new GeneralNames(new GeneralName[] {
            new GeneralName(GeneralName.dNSName, "device.fleet.example"), new GeneralName(GeneralName.iPAddress, "192.0.2.1")}));
        extensions.addExtension(Extension.extendedKeyUsage, false, new ExtendedKeyUsage(KeyPurposeId.id_kp_clientAuth));
        return extensions.generate();
    }

    private static byte[] run(int first, int count) {
        byte[] octets = new byte[count];
        for (int i = 0; i < count; i++) {
            octets[i] = (byte) (first + i);
        }
        return octets;
    }

    private static void show(String name, ASN1Encodable value) throws Exception {
        System.out.println(name + " " + HexFormat.of().formatHex(value.toASN1Primitive().getEncoded("DER")));
    }
}
